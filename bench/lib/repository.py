"""The repository: where it stands, its crates, the files of these, and the programs that are built."""

import contextlib
import os
import subprocess
import tempfile

TOP = os.path.dirname(os.path.dirname(os.path.dirname(os.path.abspath(__file__))))
CRATES = os.path.join(TOP, "crates")


def built(program, top=TOP):
    """Where a program is built."""
    return os.path.join(top, "crates", program, "out", program)


def script(name):
    """The path of another script, that is named as in `break/alloc`."""
    return os.path.join(TOP, "bench", name)


def example(name):
    """The path of an image or a folder of examples/."""
    return os.path.join(TOP, "examples", name)


def below_top(path):
    """A path as it stands below the top."""
    return os.path.relpath(path, TOP)


def uses_of(folder=TOP):
    """The libraries that each crate of a checkout uses itself, by its crates.txt, lowest crates first."""
    uses = {}
    with open(os.path.join(folder, "crates.txt"), encoding="utf-8") as file:
        for line in file:
            head, colon, rest = line.partition("#")[0].partition(":")
            if colon:
                uses[head.split()[0]] = rest.split()
    return uses


def is_of_tests(crate):
    """Whether a crate has tests alone."""
    return crate.startswith("tests_")


def files_below(folder, ending):
    """The paths of the files below a folder whose names have an ending, in order."""
    for root, folders, names in os.walk(folder):
        folders.sort()
        yield from (os.path.join(root, name) for name in sorted(names) if name.endswith(ending))


def sources_of(crate):
    """The paths of the files of Rattle of a crate."""
    return files_below(os.path.join(CRATES, crate, "src"), ".rt")


def git(*words, folder=TOP):
    """What a command of git writes that must not fail."""
    return subprocess.run(["git", *words], cwd=folder, capture_output=True, text=True, check=True).stdout


def known_files(*patterns):
    """The files that git knows or could take in, by their paths below the top; those that were deleted too."""
    return git("ls-files", "-co", "--exclude-standard", "--", *patterns).split("\n")


@contextlib.contextmanager
def fresh_clone(prefix):
    """A clone of HEAD in a temporary folder."""
    with tempfile.TemporaryDirectory(prefix=prefix) as room:
        clone = os.path.join(room, os.path.basename(TOP))
        subprocess.run(["git", "clone", "--quiet", TOP, clone], check=True)
        yield clone
