//! The documents of groups and arrays of versions 2 and 3, as typed values. A text that has no escapes is borrowed.

#![allow(dead_code)] // metadata are held for the user of a listing, whom this program does not have

use serde::de::value::MapAccessDeserializer;
use serde::de::{Error, MapAccess, Visitor};
use serde::{Deserialize, Deserializer, Serialize};
use serde_json::{Map, Value};
use std::borrow::Cow;
use std::fmt;
use std::num::NonZeroU64;

/// Members whose values stay as they stand.
pub type Members = Map<String, Value>;

/// The metadata of a node.
pub enum NodeMetadata<'a> {
    GroupV3(GroupV3),
    ArrayV3(Box<ArrayV3<'a>>),
    GroupV2(GroupV2),
    ArrayV2(Box<ArrayV2<'a>>),
}

impl NodeMetadata<'_> {
    pub fn is_group(&self) -> bool {
        matches!(self, NodeMetadata::GroupV3(_) | NodeMetadata::GroupV2(_))
    }
}

/// The group or array that the document `zarr.json` is.
pub fn node_v3(text: &str) -> serde_json::Result<NodeMetadata<'_>> {
    let kind: KindV3 = serde_json::from_str(text)?;
    match kind.node_type {
        NodeType::Group => serde_json::from_str(text)
            .map(GroupV3::known)
            .map(NodeMetadata::GroupV3),
        NodeType::Array => serde_json::from_str(text).map(NodeMetadata::ArrayV3),
    }
}

/// The node that an entry of a block is.
pub fn entry(document: Value) -> serde_json::Result<NodeMetadata<'static>> {
    let is_text = |name, text| document.get(name).and_then(Value::as_str) == Some(text);
    let format = document.get("zarr_format").and_then(Value::as_u64);
    match format {
        Some(3) if is_text("node_type", "group") => GroupV3::deserialize(document)
            .map(GroupV3::known)
            .map(NodeMetadata::GroupV3),
        Some(3) if is_text("node_type", "array") => Box::deserialize(document).map(NodeMetadata::ArrayV3),
        Some(2) if document.get("shape").is_some() => Box::deserialize(document).map(NodeMetadata::ArrayV2),
        Some(2) => group_v2_of(document).map(NodeMetadata::GroupV2),
        _ => Err(Error::custom("neither a group nor an array")),
    }
}

/// The array that the document `.zarray` is.
pub fn array_v2(text: &str) -> serde_json::Result<ArrayV2<'_>> {
    serde_json::from_str(text)
}

/// The group that the document `.zgroup` is.
pub fn group_v2(text: &str) -> serde_json::Result<GroupV2> {
    let mut document = serde_json::Deserializer::from_str(text);
    let group = group_v2_of(&mut document)?;
    document.end()?;
    Ok(group)
}

/// The version 2 group that a document is.
pub fn group_v2_of<'de, D: Deserializer<'de>>(document: D) -> Result<GroupV2, D::Error> {
    let group = GroupV2::deserialize(document)?;
    if group.additional_fields.contains_key("shape") {
        return Err(Error::custom("a group has no shape"));
    }
    Ok(group)
}

/// The attributes that the document `.zattrs` is.
pub fn attributes(text: &str) -> serde_json::Result<Members> {
    serde_json::from_str(text).map(|attributes: Attributes| attributes.0)
}

/// The documents of a version 3 group's block by their keys, moved out of its fields, where it has one of this form.
pub fn block_document(group: &mut GroupV3) -> Option<Members> {
    let Some(Value::Object(mut block)) = group.additional_fields.remove("consolidated_metadata") else {
        return None;
    };
    let is_inline = block.get("kind").and_then(Value::as_str) == Some("inline");
    let need_not = matches!(block.get("must_understand"), None | Some(Value::Bool(false)));
    match block.remove("metadata") {
        Some(Value::Object(documents)) if is_inline && need_not => Some(documents),
        _ => None,
    }
}

/// The document `.zmetadata`.
#[derive(Deserialize)]
pub struct SmallStore {
    zarr_consolidated_format: Format<1>,
    #[serde(deserialize_with = "whole_members")]
    pub metadata: Members,
    #[serde(flatten, deserialize_with = "whole_members")]
    additional_fields: Members,
}

/// The document `.zattrs`.
#[derive(Deserialize)]
pub struct Attributes(#[serde(deserialize_with = "whole_members")] pub Members);

/// What tells the kind of a version 3 document.
#[derive(Deserialize)]
struct KindV3 {
    zarr_format: Format<3>,
    node_type: NodeType,
}

#[derive(Deserialize)]
#[serde(rename_all = "lowercase")]
pub enum NodeType {
    Group,
    Array,
}

/// A version 3 group.
#[derive(Deserialize)]
pub struct GroupV3 {
    zarr_format: Format<3>,
    node_type: NodeType,
    #[serde(default, deserialize_with = "whole_members")]
    pub attributes: Members,
    #[serde(flatten, deserialize_with = "whole_members")]
    pub additional_fields: Members,
}

impl GroupV3 {
    /// The group without a block that is null, which is none.
    fn known(mut self) -> Self {
        if let Some(Value::Null) = self.additional_fields.get("consolidated_metadata") {
            self.additional_fields.remove("consolidated_metadata");
        }
        self
    }
}

/// A version 3 array.
#[derive(Deserialize)]
pub struct ArrayV3<'a> {
    zarr_format: Format<3>,
    node_type: NodeType,
    pub shape: Vec<u64>,
    #[serde(borrow)]
    pub data_type: Extension<'a>,
    #[serde(borrow)]
    pub chunk_grid: Extension<'a>,
    #[serde(borrow)]
    pub chunk_key_encoding: Extension<'a>,
    #[serde(deserialize_with = "whole")]
    pub fill_value: Value,
    #[serde(borrow)]
    pub codecs: Vec<Extension<'a>>,
    #[serde(default, deserialize_with = "whole_members")]
    pub attributes: Members,
    #[serde(default, borrow)]
    pub storage_transformers: Vec<Extension<'a>>,
    #[serde(default, borrow)]
    pub dimension_names: Option<Vec<Option<Text<'a>>>>,
    #[serde(flatten, deserialize_with = "whole_members")]
    pub additional_fields: Members,
}

/// A version 2 group.
#[derive(Deserialize)]
pub struct GroupV2 {
    zarr_format: Format<2>,
    #[serde(default, deserialize_with = "whole_members")]
    pub attributes: Members,
    #[serde(flatten, deserialize_with = "whole_members")]
    pub additional_fields: Members,
}

/// A version 2 array.
#[derive(Deserialize)]
pub struct ArrayV2<'a> {
    zarr_format: Format<2>,
    pub shape: Vec<u64>,
    pub chunks: Vec<NonZeroU64>,
    #[serde(borrow)]
    pub dtype: DataTypeV2<'a>,
    #[serde(deserialize_with = "whole")]
    pub fill_value: Value,
    pub order: Order,
    #[serde(default, borrow)]
    pub compressor: Option<CodecV2<'a>>,
    #[serde(default, borrow)]
    pub filters: Option<Vec<CodecV2<'a>>>,
    #[serde(default)]
    dimension_separator: Option<Separator>,
    #[serde(default, deserialize_with = "whole_members")]
    pub attributes: Members,
    #[serde(flatten, deserialize_with = "whole_members")]
    pub additional_fields: Members,
}

impl ArrayV2<'_> {
    pub fn dimension_separator(&self) -> &Separator {
        self.dimension_separator.as_ref().unwrap_or(&Separator::Dot)
    }
}

/// A data type of version 2: a text, or a list of fields.
#[derive(Deserialize)]
#[serde(untagged)]
pub enum DataTypeV2<'a> {
    #[serde(borrow)]
    Simple(Text<'a>),
    #[serde(deserialize_with = "whole_items")]
    Structured(Vec<Value>),
}

#[derive(Deserialize, Serialize)]
pub enum Order {
    C,
    F,
}

#[derive(Deserialize, Serialize)]
pub enum Separator {
    #[serde(rename = ".")]
    Dot,
    #[serde(rename = "/")]
    Slash,
}

/// A codec of version 2: its name, and the other members as its configuration.
#[derive(Deserialize)]
pub struct CodecV2<'a> {
    #[serde(borrow)]
    pub id: Text<'a>,
    #[serde(flatten, deserialize_with = "whole_members")]
    pub configuration: Members,
}

/// A text, borrowed where it stands in the document as it is.
#[derive(Deserialize)]
pub struct Text<'a>(#[serde(borrow)] pub Cow<'a, str>);

/// The number `N` of a format.
pub struct Format<const N: u64>;

impl<'de, const N: u64> Deserialize<'de> for Format<N> {
    fn deserialize<D: Deserializer<'de>>(deserializer: D) -> Result<Self, D::Error> {
        match u64::deserialize(deserializer)? {
            number if number == N => Ok(Format),
            number => Err(D::Error::custom(format_args!("the format is {number} in place of {N}"))),
        }
    }
}

/// An extension of version 3: a text, which is its name, or an object.
pub struct Extension<'a> {
    pub name: Text<'a>,
    pub configuration: Option<Members>,
    pub must_understand: bool,
}

#[derive(Deserialize)]
struct ExtensionObject<'a> {
    #[serde(borrow)]
    name: Text<'a>,
    #[serde(default, deserialize_with = "whole_configuration")]
    configuration: Option<Members>,
    #[serde(default = "yes")]
    must_understand: bool,
}

impl<'a> Extension<'a> {
    fn named(name: Cow<'a, str>) -> Self {
        Extension {
            name: Text(name),
            configuration: None,
            must_understand: true,
        }
    }
}

impl<'de: 'a, 'a> Deserialize<'de> for Extension<'a> {
    fn deserialize<D: Deserializer<'de>>(deserializer: D) -> Result<Self, D::Error> {
        deserializer.deserialize_any(ExtensionVisitor)
    }
}

struct ExtensionVisitor;

impl<'de> Visitor<'de> for ExtensionVisitor {
    type Value = Extension<'de>;

    fn expecting(&self, formatter: &mut fmt::Formatter<'_>) -> fmt::Result {
        formatter.write_str("a text, or an object with the text `name`")
    }

    fn visit_borrowed_str<E: Error>(self, name: &'de str) -> Result<Self::Value, E> {
        Ok(Extension::named(Cow::Borrowed(name)))
    }

    fn visit_str<E: Error>(self, name: &str) -> Result<Self::Value, E> {
        Ok(Extension::named(Cow::Owned(name.to_owned())))
    }

    fn visit_map<A: MapAccess<'de>>(self, members: A) -> Result<Self::Value, A::Error> {
        let object = ExtensionObject::deserialize(MapAccessDeserializer::new(members))?;
        Ok(Extension {
            name: object.name,
            configuration: object.configuration,
            must_understand: object.must_understand,
        })
    }
}

fn yes() -> bool {
    true
}

/// A value whose numbers are `u64` or `i64`.
fn whole<'de, D: Deserializer<'de>>(deserializer: D) -> Result<Value, D::Error> {
    let value = Value::deserialize(deserializer)?;
    ask_whole(&value)?;
    Ok(value)
}

fn whole_items<'de, D: Deserializer<'de>>(deserializer: D) -> Result<Vec<Value>, D::Error> {
    let items = Vec::deserialize(deserializer)?;
    items.iter().try_for_each(ask_whole)?;
    Ok(items)
}

fn whole_members<'de, D: Deserializer<'de>>(deserializer: D) -> Result<Members, D::Error> {
    let members = Members::deserialize(deserializer)?;
    members.values().try_for_each(ask_whole)?;
    Ok(members)
}

fn whole_configuration<'de, D: Deserializer<'de>>(deserializer: D) -> Result<Option<Members>, D::Error> {
    let members = Option::<Members>::deserialize(deserializer)?;
    members.iter().flatten().try_for_each(|(_, value)| ask_whole(value))?;
    Ok(members)
}

/// Refuses a number that is neither `u64` nor `i64`.
fn ask_whole<E: Error>(value: &Value) -> Result<(), E> {
    match value {
        Value::Number(number) if number.is_f64() => Err(E::custom(format_args!("the number {number} is not whole"))),
        Value::Array(items) => items.iter().try_for_each(ask_whole),
        Value::Object(members) => members.values().try_for_each(ask_whole),
        _ => Ok(()),
    }
}
