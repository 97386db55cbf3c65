"""Programs that are run: what they write, and scripts that are taken in as modules."""

import importlib.machinery
import importlib.util
import os
import subprocess
import sys

from lib.repository import script


def run(command, given="", seconds=None):
    """Standard output, standard error and the status of a run that reads a text, or bytes, and then writes the like."""
    done = subprocess.run(command, input=given, capture_output=True, text=isinstance(given, str), timeout=seconds)
    return done.stdout, done.stderr, done.returncode


def ended(words, folder=None):
    """A run with nothing to read, as it ended, with the texts that it wrote."""
    return subprocess.run(words, cwd=folder, stdin=subprocess.DEVNULL, capture_output=True, text=True)


def loaded(name):
    """Another script as a module, that is named as in `compare/check-plain`; nothing is left beside it."""
    sys.dont_write_bytecode = True
    module_name = os.path.basename(name).replace("-", "_")
    loader = importlib.machinery.SourceFileLoader(module_name, script(name))
    module = importlib.util.module_from_spec(importlib.util.spec_from_loader(module_name, loader))
    loader.exec_module(module)
    return module
