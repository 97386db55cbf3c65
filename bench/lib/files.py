"""Files: texts and JSON that are read and written."""

import json
import os


def text_of(path):
    """The text of a file."""
    with open(path, encoding="utf-8") as file:
        return file.read()


def write(path, data):
    """A file with a text or with bytes, and the folders above it."""
    os.makedirs(os.path.dirname(os.path.abspath(path)), exist_ok=True)
    with open(path, "wb") as file:
        file.write(data.encode() if isinstance(data, str) else data)


def read_json(path):
    """The value of a file of JSON."""
    return json.loads(text_of(path))


def write_json(path, value, **how):
    """A file with a value as JSON, and the folders above it."""
    write(path, json.dumps(value, **how))
