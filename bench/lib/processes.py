"""The processes of the machine, and the processor's time that they took."""

import collections
import contextlib
import os
import resource

TICKS = os.sysconf("SC_CLK_TCK")

# A process: the number of the one above it, its command, when it began and its processor's time, both in ticks.
Process = collections.namedtuple("Process", "above command begun ticks")


def process_of(number):
    """The process of a number."""
    with open(f"/proc/{number}/stat", "rb") as file:
        head, _, rest = file.read().rpartition(b")")
    fields = rest.split()
    command = head.partition(b"(")[2].decode(errors="replace")
    return Process(int(fields[1]), command, int(fields[19]), int(fields[11]) + int(fields[12]))


def all_processes():
    """All processes by their numbers; one that ends meanwhile is left out."""
    found = {}
    for number in filter(str.isdigit, os.listdir("/proc")):
        with contextlib.suppress(OSError, ValueError, IndexError):
            found[int(number)] = process_of(number)
    return found


def children_seconds():
    """The processor's seconds of all that this script started and that has ended."""
    used = resource.getrusage(resource.RUSAGE_CHILDREN)
    return used.ru_utime + used.ru_stime
