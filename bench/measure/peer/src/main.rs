//! A peer to be measured against: what a plain Rust program over serde takes for the work of `zarrs_tool`.
//!
//! It reads an image of a store, a JSON object from keys to texts, from standard input, reads each document that counts
//! as a typed value, and prints what `zarrs_tool` prints. Nothing of it is proved, and nothing else of this repository
//! uses it: `bench/measure/measure` runs it beside `zarrs_tool`.
//!
//! It refuses what `zarrs_tool` refuses, with other texts, but for three things: of a member that stands twice in a
//! document it refuses both, members of an extension besides its three are not looked into, and it has no limit of
//! memory but the machine's.
//!
//! usage: peer list|list-paths|tree|consolidate PATH < IMAGE
//!
//! `list` holds all nodes with their metadata until it has printed their paths; `list-paths` reads and judges the same
//! documents, and holds the paths alone, as `zarrs_tool list` does. `tree` holds all nodes too, of a block where the
//! group at the path has one. `consolidate` moves them into a map, and writes the block of it.

mod blocks;
mod documents;
mod listing;
mod written;

use blocks::{expand, held, small, Block, Nodes};
use documents::NodeMetadata;
use listing::{is_name, list_below, metadata_at, Pair, Store};
use std::error::Error;
use std::io::{BufWriter, Read, Write};
use std::process::ExitCode;
use std::{env, io};

const USAGE: &str = "usage: peer list|list-paths|tree|consolidate PATH < IMAGE";

fn main() -> ExitCode {
    let words: Vec<String> = env::args().skip(1).collect();
    match run(&words) {
        Ok(()) => ExitCode::SUCCESS,
        Err(error) => {
            eprintln!("peer: {error}");
            ExitCode::FAILURE
        }
    }
}

/// Loads the image on standard input, and prints what the words ask of it.
fn run(words: &[String]) -> Result<(), Box<dyn Error>> {
    let (word, path) = match words {
        [word, path] => (word.as_str(), path.as_str()),
        _ => return Err(USAGE.into()),
    };
    let prefix = prefix_of(path)?;
    let store = load(io::stdin().lock())?;
    match word {
        "list" => print(&list_below(&store, &prefix, &|metadata| metadata)?),
        "list-paths" => print(&list_below(&store, &prefix, &|_| ())?),
        "tree" => print_tree(path, &open(&store, path, &prefix)?),
        "consolidate" => print_block(&consolidate(&store, path, &prefix)?),
        _ => Err(USAGE.into()),
    }
}

/// The beginning of the keys below a path.
fn prefix_of(path: &str) -> Result<String, String> {
    match path.strip_prefix('/') {
        Some("") => Ok(String::new()),
        Some(names) if names.split('/').all(is_name) => Ok(format!("{names}/")),
        _ => Err(format!("invalid node path {path}")),
    }
}

/// The store of an image.
fn load(mut input: impl Read) -> Result<Store, Box<dyn Error>> {
    let mut text = String::new();
    input.read_to_string(&mut text)?;
    let store: Store = serde_json::from_str(&text)?;
    match store.keys().find(|key| key.split('/').any(str::is_empty)) {
        Some(key) => Err(format!("invalid store key {key}").into()),
        None => Ok(store),
    }
}

/// The metadata of the node at a path.
fn metadata<'a>(store: &'a Store, path: &str, prefix: &str) -> Result<NodeMetadata<'a>, String> {
    metadata_at(store, prefix)?.ok_or_else(|| format!("metadata is missing for {path}"))
}

/// The nodes below a path in path order, by the block of the group at the path where it has one.
fn open<'a>(store: &'a Store, path: &str, prefix: &str) -> Result<Vec<Pair<'a>>, String> {
    let block = match metadata(store, path, prefix)? {
        NodeMetadata::GroupV3(mut group) => held(&mut group),
        NodeMetadata::GroupV2(_) => store.get(&format!("{prefix}.zmetadata")).and_then(|text| small(text)),
        NodeMetadata::ArrayV3(_) | NodeMetadata::ArrayV2(_) => return Ok(Vec::new()),
    };
    match block {
        Some(nodes) => expand(prefix, nodes),
        None => list_below(store, prefix, &|metadata| metadata),
    }
}

/// All nodes that a listing finds below the group at a path, by their paths below it.
fn consolidate<'a>(store: &'a Store, path: &str, prefix: &str) -> Result<Nodes<'a>, String> {
    if !metadata(store, path, prefix)?.is_group() {
        return Err("not a group".to_owned());
    }
    let nodes = list_below(store, prefix, &|metadata| metadata)?;
    let below = 1 + prefix.len();
    let at_keys = nodes
        .into_iter()
        .map(|(path, metadata)| (path[below..].to_owned(), metadata));
    Ok(at_keys.collect())
}

/// Prints the path of each node, one a line.
fn print<M>(nodes: &[(String, M)]) -> Result<(), Box<dyn Error>> {
    let mut output = BufWriter::new(io::stdout().lock());
    for (path, _) in nodes {
        writeln!(output, "{path}")?;
    }
    Ok(output.flush()?)
}

/// Prints a path and a line for each node below it, deeper by its names.
fn print_tree(path: &str, nodes: &[Pair]) -> Result<(), Box<dyn Error>> {
    let mut output = BufWriter::new(io::stdout().lock());
    writeln!(output, "{path}")?;
    let above = path.trim_end_matches('/').len();
    for (path, metadata) in nodes {
        let names = &path[above + 1..];
        let name = names.rsplit('/').next().unwrap_or(names);
        let indent = 2 * names.split('/').count();
        writeln!(output, "{:indent$}{name}{metadata}", "")?;
    }
    Ok(output.flush()?)
}

/// Prints the block of some nodes.
fn print_block(nodes: &Nodes) -> Result<(), Box<dyn Error>> {
    let mut output = BufWriter::new(io::stdout().lock());
    serde_json::to_writer_pretty(&mut output, &Block::of(nodes))?;
    output.write_all(b"\n")?;
    Ok(output.flush()?)
}
