"""Texts: lines of a table in Markdown, the links to headings, paragraphs of some columns, and blanks in the place of what does not count."""

import itertools
import re
import textwrap

COLUMNS = 118


def table_line(cells):
    """A line of a table in Markdown."""
    return f"| {' | '.join(map(str, cells))} |"


def table_head(titles):
    """The first two lines of a table in Markdown."""
    return f"{table_line(titles)}\n|{'---|' * len(titles)}"


def part_of(heading):
    """The name by which a link leads to a heading, as the usual readers of Markdown make it."""
    words = re.sub(r"\[([^\]]*)\]\([^)]*\)", r"\1", heading)
    return re.sub(r"[^\w\- ]", "", words.lower()).replace(" ", "-")


def first_difference(here, there):
    """The number of the first line in which two texts differ, or nothing."""
    both = enumerate(itertools.zip_longest(here.split("\n"), there.split("\n")), 1)
    return next((number for number, (one, other) in both if one != other), None)


def wrapped(text, rest=""):
    """The text in lines of at most so many columns, cut at blanks; lines behind the first begin with `rest`."""
    return textwrap.fill(text, COLUMNS, subsequent_indent=rest, break_long_words=False, break_on_hyphens=False)


def blanked(text):
    """Blanks for a text, with its line breaks."""
    return re.sub(r"[^\n]", " ", text)
