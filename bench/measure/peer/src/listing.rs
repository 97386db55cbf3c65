//! The nodes below a path.

use crate::documents::{array_v2, attributes, group_v2, node_v3, NodeMetadata};
use std::collections::BTreeMap;
use std::ops::Bound::{Included, Unbounded};

/// Keys with their texts, ascending.
pub type Store = BTreeMap<String, String>;

/// A path with the metadata of its node.
pub type Pair<'a> = (String, NodeMetadata<'a>);

/// Whether a text is the name of a node.
pub fn is_name(text: &str) -> bool {
    text.bytes().any(|byte| byte != b'.') && !text.starts_with("__")
}

/// The nodes below a prefix, parents before children and siblings ascending, each with what is kept of its metadata.
/// A child without documents is passed over with all below it.
pub fn list_below<'a, M>(
    store: &'a Store,
    prefix: &str,
    keep: &impl Fn(NodeMetadata<'a>) -> M,
) -> Result<Vec<(String, M)>, String> {
    let mut nodes = Vec::new();
    let mut prefix = prefix.to_owned();
    let mut groups = vec![(prefix.len(), child_names(store, &prefix).into_iter())];
    while let Some((length, names)) = groups.last_mut() {
        prefix.truncate(*length);
        let Some(name) = names.next() else {
            groups.pop();
            continue;
        };
        prefix.push_str(name);
        let path = format!("/{prefix}");
        if name.bytes().all(|byte| byte == b'.') {
            return Err(format!("invalid node path {path}"));
        }
        prefix.push('/');
        let Some(metadata) = metadata_at(store, &prefix)? else {
            eprintln!("object at {path} is no part of a hierarchy");
            continue;
        };
        if metadata.is_group() {
            groups.push((prefix.len(), child_names(store, &prefix).into_iter()));
        }
        nodes.push((path, keep(metadata)));
    }
    Ok(nodes)
}

/// The names that keys have behind a prefix, before a slash, ascending; without those that begin with `__`.
fn child_names<'a>(store: &'a Store, prefix: &str) -> Vec<&'a str> {
    let mut names = Vec::new();
    let mut from = prefix.to_owned();
    while let Some((key, _)) = store.range::<str, _>((Included(from.as_str()), Unbounded)).next() {
        let rest = match key.strip_prefix(prefix) {
            Some(rest) => rest,
            None => break,
        };
        from.clear();
        match rest.split_once('/') {
            Some((name, _)) => {
                if !name.starts_with("__") {
                    names.push(name);
                }
                from.extend([prefix, name, "0"]); // '0' is the character after '/'
            }
            None => from.extend([key, "\0"]),
        }
    }
    names.sort_unstable(); // "a-b/" stands before "a/", and "a" before "a-b"
    names
}

/// What the documents below a prefix say, or none where there are none.
pub fn metadata_at<'a>(store: &'a Store, prefix: &str) -> Result<Option<NodeMetadata<'a>>, String> {
    if let Some(metadata) = document(store, format!("{prefix}zarr.json"), node_v3)? {
        return Ok(Some(metadata));
    }
    if let Some(mut array) = document(store, format!("{prefix}.zarray"), array_v2)? {
        if let Some(attributes) = document(store, format!("{prefix}.zattrs"), attributes)? {
            array.attributes = attributes;
        }
        return Ok(Some(NodeMetadata::ArrayV2(Box::new(array))));
    }
    if let Some(mut group) = document(store, format!("{prefix}.zgroup"), group_v2)? {
        if let Some(attributes) = document(store, format!("{prefix}.zattrs"), attributes)? {
            group.attributes = attributes;
        }
        return Ok(Some(NodeMetadata::GroupV2(group)));
    }
    Ok(None)
}

/// The document at a key, or none where the key is absent.
fn document<'a, D>(
    store: &'a Store,
    key: String,
    read: impl Fn(&'a str) -> serde_json::Result<D>,
) -> Result<Option<D>, String> {
    match store.get(&key) {
        Some(text) => match read(text) {
            Ok(document) => Ok(Some(document)),
            Err(error) => Err(format!("{key}: {error}")),
        },
        None => Ok(None),
    }
}
