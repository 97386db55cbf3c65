"""Programs in Rattle that read a group of version 3 with a block and write a line of microseconds a round; and such groups, no two of whose nodes are alike."""

import json
import sys

from lib import building
from lib.running import run

CRATES = ["zarrs_fault", "zarrs_store", "zarrs_path", "zarrs_config", "zarrs_form", "zarrs_meta", "zarrs_meaning", "zarrs_block", "zarrs_node"]

# What each such program has: where it begins, by `measure`, and how it takes times.
START = r"""
const ROUNDS: u32 = @ROUNDS@;

fn main(rt: HostRuntime) -> ExitCode {
    match measure(&rt) {
        Some(()) => ExitCode::from(0),
        None => ExitCode::from(1),
    }
}
"""
MICROS = r"""
fn micros_since(rt: &HostRuntime, start: Instant) -> Option<u128> {
    let end = Instant::now(rt).ok()?;
    Some(end.saturating_duration_since(start).as_micros())
}
"""

UNITS = ["kelvin", "pascal", "metre", "second"]
TYPES = [("float32", 0), ("int16", -32768), ("uint8", 255), ("float64", "NaN")]


def group(number):
    """A group whose attributes no other has."""
    return {
        "attributes": {"index": number, "levels": list(range(number % 7)), "title": f"group {number}"},
        "node_type": "group",
        "zarr_format": 3,
    }


def array(number):
    """An array whose attributes and shape no other has."""
    data_type, fill_value = TYPES[number % len(TYPES)]
    return {
        "attributes": {
            "long_name": f"variable {number}",
            "units": UNITS[number % len(UNITS)],
            "valid_max": number,
        },
        "chunk_grid": {"configuration": {"chunk_shape": [1, 90 + number % 90]}, "name": "regular"},
        "chunk_key_encoding": {"configuration": {"separator": "/"}, "name": "default"},
        "codecs": [
            {"configuration": {"endian": "little"}, "name": "bytes"},
            {"configuration": {"level": number % 9}, "name": "zstd"},
        ],
        "data_type": data_type,
        "dimension_names": ["time", f"x_{number}"],
        "fill_value": fill_value,
        "node_type": "array",
        "shape": [number, 360],
        "zarr_format": 3,
    }


def document(entries):
    """The text of a group's `zarr.json` with a block of some entries."""
    members = {
        "attributes": {},
        "consolidated_metadata": {"kind": "inline", "metadata": entries, "must_understand": False},
        "node_type": "group",
        "zarr_format": 3,
    }
    return json.dumps(members, separators=(",", ":"))


def build(script, folder, source, rounds, entries):
    """Builds a program that takes so many rounds, and gives its path. It is run once over a group with some entries."""
    parts = {"@START@": START.strip(), "@MICROS@": MICROS.strip(), "@ROUNDS@": str(rounds)}
    for mark, text in parts.items():
        source = source.replace(mark, text)
    used = [name for name in CRATES if name not in ("zarrs_fault", "zarrs_form")]
    uses = [*used, "serde_json", "log"]
    return building.build(f"{script}: the program", folder, "bench_blocks", uses, source.lstrip(), CRATES, document(entries))


def rounds_of(script, program, text, entries):
    """The numbers that a program wrote over a group, those of each round behind the number of entries, which is checked."""
    written, _, status = run([program], text)
    if status != 0:
        sys.exit(f"{script}: the program ended with status {status}")
    rounds = [[int(word) for word in line.split()] for line in written.splitlines()]
    if any(times[0] != entries for times in rounds):
        sys.exit(f"{script}: the block has another number of entries")
    return rounds
