"""System calls of a run, by strace: which it made, and the words that let some of them fail, wait or end the program."""

import collections
import re

# A call of a log: its name, how many calls of that name there were up to it, and its line.
Call = collections.namedtuple("Call", "name number text")

CALL = re.compile(r"(?:\d+ +)?(\w+)\(")


def calls_in(log):
    """The calls of a log, in their order."""
    counts, calls = collections.Counter(), []
    with open(log, encoding="utf-8", errors="replace") as lines:
        for line in lines:
            found = CALL.match(line)
            if found:
                counts[found[1]] += 1
                calls.append(Call(found[1], counts[found[1]], line.rstrip("\n")))
    return calls


def own_calls(calls, folder):
    """The calls from the first on that names a folder: those before it start the program."""
    named = (at for at, call in enumerate(calls) if call.name != "execve" and f'"{folder}' in call.text)
    return calls[next(named, len(calls)) :]


def injected(calls):
    """The calls that were made to fail."""
    return [call for call in calls if call.text.endswith("(INJECTED)")]


def traced(log, names=()):
    """The words in front of a command whose calls go to a log: those of some names; or all, and with the paths of the files that they are made on."""
    chosen = ["--seccomp-bpf", "-e", f"trace={','.join(sorted(set(names)))}"] if names else ["-y"]
    return ["strace", "-f", "-qq", *chosen, "-o", log]


def injection(call, what, until=None):
    """The words that do something at a call, as `error=EIO`, `signal=KILL` or `delay_enter=1000`; and at a later call of its name, or at all (`+`)."""
    when = str(call.number)
    if until == "+":
        when += "+"
    elif until is not None:
        when += f"..{until.number}+{until.number - call.number}"
    return ["-e", f"inject={call.name}:{what}:when={when}"]
