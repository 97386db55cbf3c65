//! Consolidated blocks: the nodes below a group in one document.

use crate::documents::{block_document, entry, group_v2_of, ArrayV2, Attributes, GroupV3, NodeMetadata, SmallStore};
use crate::listing::{is_name, Pair};
use serde::{Deserialize, Serialize};
use serde_json::Value;
use std::collections::BTreeMap;

/// The nodes of a block at their keys, which are their paths below the group.
pub type Nodes<'a> = BTreeMap<String, NodeMetadata<'a>>;

/// A block as it is written.
#[derive(Serialize)]
pub struct Block<'n, 'a> {
    kind: &'static str,
    metadata: &'n Nodes<'a>,
    must_understand: bool,
}

impl<'n, 'a> Block<'n, 'a> {
    pub fn of(metadata: &'n Nodes<'a>) -> Self {
        Block {
            kind: "inline",
            metadata,
            must_understand: false,
        }
    }
}

/// The nodes of a version 3 group's block, moved out of its fields, where it has one that reads.
pub fn held(group: &mut GroupV3) -> Option<Nodes<'static>> {
    let documents = block_document(group)?;
    let nodes = documents.into_iter().map(|(key, document)| Ok((key, entry(document)?)));
    nodes.collect::<serde_json::Result<_>>().ok()
}

/// The documents of version 2 of one path.
#[derive(Default)]
struct Documents {
    array: Option<Value>,
    group: Option<Value>,
    attributes: Option<Value>,
}

impl Documents {
    fn place(&mut self, file: &str) -> Option<&mut Option<Value>> {
        match file {
            ".zarray" => Some(&mut self.array),
            ".zgroup" => Some(&mut self.group),
            ".zattrs" => Some(&mut self.attributes),
            _ => None,
        }
    }

    fn node(self) -> serde_json::Result<Option<NodeMetadata<'static>>> {
        if let Some(document) = self.array {
            let mut array = Box::<ArrayV2>::deserialize(document)?;
            if let Some(attributes) = self.attributes {
                array.attributes = Attributes::deserialize(attributes)?.0;
            }
            return Ok(Some(NodeMetadata::ArrayV2(array)));
        }
        let Some(document) = self.group else {
            return Ok(None);
        };
        let mut group = group_v2_of(document)?;
        if let Some(attributes) = self.attributes {
            group.attributes = Attributes::deserialize(attributes)?.0;
        }
        Ok(Some(NodeMetadata::GroupV2(group)))
    }
}

/// The nodes of a document `.zmetadata`, where it reads.
pub fn small(text: &str) -> Option<Nodes<'static>> {
    let store: SmallStore = serde_json::from_str(text).ok()?;
    let mut all = BTreeMap::<String, Documents>::new();
    for (key, document) in store.metadata {
        let Some((path, file)) = key.rsplit_once('/') else {
            continue;
        };
        if !matches!(file, ".zarray" | ".zgroup" | ".zattrs") {
            continue;
        }
        if !path.split('/').all(is_name) {
            return None;
        }
        if !all.contains_key(path) {
            all.insert(path.to_owned(), Documents::default());
        }
        *all.get_mut(path)?.place(file)? = Some(document);
    }
    let mut nodes = Nodes::new();
    for (path, documents) in all {
        if let Some(node) = documents.node().ok()? {
            nodes.insert(path, node);
        }
    }
    Some(nodes)
}

/// The nodes of a block at their paths, ascending by names. The key of the group itself is passed over, and so is a key
/// behind a slash where the same stands without it.
pub fn expand<'a>(prefix: &str, nodes: Nodes<'a>) -> Result<Vec<Pair<'a>>, String> {
    let is_again = |key: &str| key.strip_prefix('/').map_or(false, |names| nodes.contains_key(names));
    let again: Vec<bool> = nodes.keys().map(|key| is_again(key)).collect();
    let mut pairs = Vec::with_capacity(nodes.len());
    for ((key, metadata), is_again) in nodes.into_iter().zip(again) {
        let names = key.strip_prefix('/').unwrap_or(&key);
        if names.is_empty() {
            continue;
        }
        if !names.split('/').all(is_name) {
            return Err(format!("invalid node path {key}"));
        }
        if !is_again {
            pairs.push((format!("/{prefix}{names}"), metadata));
        }
    }
    pairs.sort_by(|(one, _), (other, _)| one.split('/').cmp(other.split('/')));
    Ok(pairs)
}
