"""Small programs in Rattle, which are built over this repository's crates in a folder of their own."""

import os
import shutil
import subprocess
import sys

from lib.files import write
from lib.repository import CRATES, uses_of


def build(script, folder, name, uses, source, crates=(), given=""):
    """Builds a program of one file that uses crates, with copies of those that stand in this repository, and gives its path. It is run once, and given a text."""
    for crate in crates:
        shutil.copytree(os.path.join(CRATES, crate), os.path.join(folder, "crates", crate), symlinks=True)
    used = {**{crate: below for crate, below in uses_of().items() if crate in crates}, name: uses}
    write(os.path.join(folder, "crates.txt"), "".join(f"{crate}: {' '.join(below)}\n" for crate, below in used.items()))
    home = os.path.join(folder, "crates", name)
    write(os.path.join(home, "src", "main.rt"), source)
    subprocess.run(["git", "init", "-q", folder], check=True)
    built = subprocess.run(["rt", "run"], cwd=home, input=given, capture_output=True, text=True)
    program = os.path.join(home, "out", name)
    if not os.path.exists(program):
        sys.exit(f"{script} was not built\n{built.stdout}{built.stderr}")
    return program
