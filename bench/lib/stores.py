"""Stores: their documents as JSON values by their keys, with the blocks of these, and the files of a folder as such."""

import copy
import os

from lib.files import text_of

DOCUMENTS_V2 = (".zarray", ".zgroup", ".zattrs")
DOCUMENTS = ("zarr.json", *DOCUMENTS_V2, ".zmetadata")
# What a run of writing that is broken off leaves at a group, of version 3 and of version 2.
LEFT_OVER = ("zarr.json.zarrs_new", ".zmetadata.zarrs_new")


def group_v3(attributes=None, **fields):
    group = {"zarr_format": 3, "node_type": "group", **fields}
    return {**group, "attributes": attributes} if attributes is not None else group


def array_v3(shape, attributes=None, **fields):
    return {
        "zarr_format": 3, "node_type": "array", "shape": shape, "data_type": "float32",
        "chunk_grid": {"name": "regular", "configuration": {"chunk_shape": shape}},
        "chunk_key_encoding": {"name": "default", "configuration": {"separator": "/"}},
        "fill_value": 0, "codecs": [{"name": "bytes", "configuration": {"endian": "little"}}, {"name": "zstd", "configuration": {"level": 0}}],
        "attributes": attributes or {}, "storage_transformers": [], **fields,
    }  # fmt: skip


def group_v2(_=None):
    return {"zarr_format": 2}


def array_v2(shape, attributes=None, **fields):
    return {
        "zarr_format": 2, "shape": shape, "chunks": [max(length, 1) for length in shape], "dtype": "<f4", "fill_value": None, "order": "C",
        "compressor": {"id": "zlib", "level": 1}, "filters": None, **fields,
    }  # fmt: skip


def block_v3(metadata):
    return {"kind": "inline", "must_understand": False, "metadata": metadata}


def below(keys, path):
    """The keys that stand below a path."""
    return [key for key in keys if not path or key.startswith(path + "/")]


def consolidated_v3(documents, path):
    """The block of the nodes of version 3 below a path, as zarr-python 3 writes it: each group in it with an empty block."""
    metadata = {}
    for key in below(documents, path):
        node = key.removesuffix("/zarr.json")
        if node != key and node != path and isinstance(documents[key], dict):
            entry = {name: value for name, value in documents[key].items() if name != "consolidated_metadata"}
            if entry.get("node_type") == "group":
                entry["consolidated_metadata"] = block_v3({})
            metadata[node[len(path) :].lstrip("/")] = copy.deepcopy(entry)
    return block_v3(metadata)


def consolidated_v2(documents, path):
    """The documents of version 2 at and below a path that read, as `.zmetadata` has them."""
    found = {
        key[len(path) :].lstrip("/"): copy.deepcopy(documents[key])
        for key in below(documents, path)
        if key.split("/")[-1] in DOCUMENTS_V2 and not isinstance(documents[key], bytes)
    }
    return {"zarr_consolidated_format": 1, "metadata": found}


def places(value, found=None):
    """All objects and lists within a value that are not empty."""
    found = [] if found is None else found
    if isinstance(value, (dict, list)) and value:
        found.append(value)
        for part in value.values() if isinstance(value, dict) else value:
            places(part, found)
    return found


def keys_in(folder):
    """The keys of a store in a folder, in order."""
    found = []
    for at, _, names in os.walk(folder):
        found += [os.path.relpath(os.path.join(at, name), folder) for name in names]
    return sorted(found)


def texts_in(folder):
    """The texts of the documents of a store in a folder, by their keys, and of each other file an empty one."""
    return {key: text_of(os.path.join(folder, key)) if os.path.basename(key) in DOCUMENTS else "" for key in keys_in(folder)}
