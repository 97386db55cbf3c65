//! Documents as they are written: members ascending, and of those that need not stand only what says something; and the
//! lines of a printed tree.

use crate::documents::{
    ArrayV2, ArrayV3, CodecV2, DataTypeV2, Extension, GroupV2, GroupV3, Members, NodeMetadata, Text,
};
use serde::ser::SerializeMap;
use serde::{Serialize, Serializer};
use serde_json::map::Iter;
use std::fmt;
use std::iter::Peekable;

/// A document whose members are being written, the additional ones each at its place.
struct Document<'m, S> {
    members: S,
    additional: Peekable<Iter<'m>>,
}

impl<'m, S: SerializeMap> Document<'m, S> {
    fn begin<T: Serializer<SerializeMap = S, Error = S::Error>>(
        serializer: T,
        additional: &'m Members,
    ) -> Result<Self, S::Error> {
        Ok(Document {
            members: serializer.serialize_map(None)?,
            additional: additional.iter().peekable(),
        })
    }

    /// Writes a member, after those before it. The members are named in ascending order.
    fn put(&mut self, name: &str, value: &(impl Serialize + ?Sized)) -> Result<(), S::Error> {
        while let Some((other, value)) = self.additional.next_if(|(other, _)| other.as_str() < name) {
            self.members.serialize_entry(other, value)?;
        }
        self.members.serialize_entry(name, value)
    }

    fn put_some(&mut self, name: &str, value: &Option<impl Serialize>) -> Result<(), S::Error> {
        value.as_ref().map_or(Ok(()), |value| self.put(name, value))
    }

    fn put_unless(&mut self, is_empty: bool, name: &str, value: &impl Serialize) -> Result<(), S::Error> {
        if is_empty {
            return Ok(());
        }
        self.put(name, value)
    }

    fn end(mut self) -> Result<S::Ok, S::Error> {
        for (name, value) in self.additional {
            self.members.serialize_entry(name, value)?;
        }
        self.members.end()
    }
}

/// What the line of a node says behind its name: for an array its shape and its data type.
impl fmt::Display for NodeMetadata<'_> {
    fn fmt(&self, formatter: &mut fmt::Formatter<'_>) -> fmt::Result {
        match self {
            NodeMetadata::GroupV3(_) | NodeMetadata::GroupV2(_) => Ok(()),
            NodeMetadata::ArrayV3(array) => {
                let data_type = &array.data_type;
                let configured = if data_type.configuration.is_some() { "(..)" } else { "" };
                write!(formatter, " {:?} {}{configured}", array.shape, data_type.name.0)
            }
            NodeMetadata::ArrayV2(array) => match &array.dtype {
                DataTypeV2::Simple(name) => write!(formatter, " {:?} Simple(\"{}\")", array.shape, name.0),
                DataTypeV2::Structured(_) => write!(formatter, " {:?} Structured(..)", array.shape),
            },
        }
    }
}

impl Serialize for NodeMetadata<'_> {
    fn serialize<S: Serializer>(&self, serializer: S) -> Result<S::Ok, S::Error> {
        match self {
            NodeMetadata::GroupV3(group) => group.serialize(serializer),
            NodeMetadata::ArrayV3(array) => array.serialize(serializer),
            NodeMetadata::GroupV2(group) => group.serialize(serializer),
            NodeMetadata::ArrayV2(array) => array.serialize(serializer),
        }
    }
}

impl Serialize for GroupV3 {
    fn serialize<S: Serializer>(&self, serializer: S) -> Result<S::Ok, S::Error> {
        let mut document = Document::begin(serializer, &self.additional_fields)?;
        document.put_unless(self.attributes.is_empty(), "attributes", &self.attributes)?;
        document.put("node_type", "group")?;
        document.put("zarr_format", &3)?;
        document.end()
    }
}

impl Serialize for ArrayV3<'_> {
    fn serialize<S: Serializer>(&self, serializer: S) -> Result<S::Ok, S::Error> {
        let mut document = Document::begin(serializer, &self.additional_fields)?;
        document.put_unless(self.attributes.is_empty(), "attributes", &self.attributes)?;
        document.put("chunk_grid", &self.chunk_grid)?;
        document.put("chunk_key_encoding", &self.chunk_key_encoding)?;
        document.put("codecs", &self.codecs)?;
        document.put("data_type", &self.data_type)?;
        document.put_some("dimension_names", &self.dimension_names)?;
        document.put("fill_value", &self.fill_value)?;
        document.put("node_type", "array")?;
        document.put("shape", &self.shape)?;
        let transformers = &self.storage_transformers;
        document.put_unless(transformers.is_empty(), "storage_transformers", transformers)?;
        document.put("zarr_format", &3)?;
        document.end()
    }
}

impl Serialize for GroupV2 {
    fn serialize<S: Serializer>(&self, serializer: S) -> Result<S::Ok, S::Error> {
        let mut document = Document::begin(serializer, &self.additional_fields)?;
        document.put_unless(self.attributes.is_empty(), "attributes", &self.attributes)?;
        document.put("zarr_format", &2)?;
        document.end()
    }
}

impl Serialize for ArrayV2<'_> {
    fn serialize<S: Serializer>(&self, serializer: S) -> Result<S::Ok, S::Error> {
        let mut document = Document::begin(serializer, &self.additional_fields)?;
        document.put_unless(self.attributes.is_empty(), "attributes", &self.attributes)?;
        document.put("chunks", &self.chunks)?;
        document.put("compressor", &self.compressor)?;
        document.put("dimension_separator", self.dimension_separator())?;
        document.put("dtype", &self.dtype)?;
        document.put("fill_value", &self.fill_value)?;
        document.put("filters", &self.filters)?;
        document.put("order", &self.order)?;
        document.put("shape", &self.shape)?;
        document.put("zarr_format", &2)?;
        document.end()
    }
}

impl Serialize for DataTypeV2<'_> {
    fn serialize<S: Serializer>(&self, serializer: S) -> Result<S::Ok, S::Error> {
        match self {
            DataTypeV2::Simple(name) => name.serialize(serializer),
            DataTypeV2::Structured(fields) => fields.serialize(serializer),
        }
    }
}

impl Serialize for CodecV2<'_> {
    fn serialize<S: Serializer>(&self, serializer: S) -> Result<S::Ok, S::Error> {
        let mut document = Document::begin(serializer, &self.configuration)?;
        document.put("id", &self.id)?;
        document.end()
    }
}

impl Serialize for Extension<'_> {
    fn serialize<S: Serializer>(&self, serializer: S) -> Result<S::Ok, S::Error> {
        if self.configuration.is_none() && self.must_understand {
            return self.name.serialize(serializer);
        }
        let none = Members::new();
        let mut document = Document::begin(serializer, &none)?;
        document.put_some("configuration", &self.configuration)?;
        document.put_unless(self.must_understand, "must_understand", &false)?;
        document.put("name", &self.name)?;
        document.end()
    }
}

impl Serialize for Text<'_> {
    fn serialize<S: Serializer>(&self, serializer: S) -> Result<S::Ok, S::Error> {
        serializer.serialize_str(&self.0)
    }
}
