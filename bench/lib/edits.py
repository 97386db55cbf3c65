"""Edits: the wrong bodies of bench/edits/CRATE/ and crates/CRATE/must-fail/, each a file of lines `file: ..`, `old: ..` and `new: ..`."""

import collections
import os

from lib.files import text_of
from lib.repository import CRATES, TOP

Change = collections.namedtuple("Change", "file old new")


def edit_files(crate):
    """The paths of the edits of a crate, in the gate and beside it."""
    folders = [os.path.join(TOP, "bench", "edits", crate), os.path.join(CRATES, crate, "must-fail")]
    return sorted(
        os.path.join(folder, name) for folder in folders if os.path.isdir(folder) for name in os.listdir(folder) if name.endswith(".edit")
    )


def name_of(path):
    """The name of an edit."""
    return os.path.basename(path).removesuffix(".edit")


def changes_of(path):
    """The changes of an edit: each its file, the text there and the text in its place."""
    changes, fields = [], {}
    for line in text_of(path).splitlines():
        name, _, value = line.partition(":")
        fields[name] = value.removeprefix(" ")
        if name == "new":
            changes.append(Change(fields["file"].strip(), fields["old"], fields["new"]))
    return changes


def applied(changes, texts):
    """The texts of some files, by their paths, with changes, or None where an old text does not stand there once."""
    texts = dict(texts)
    for change in changes:
        if texts.get(change.file, "").count(change.old) != 1:
            return None
        texts[change.file] = texts[change.file].replace(change.old, change.new)
    return texts
