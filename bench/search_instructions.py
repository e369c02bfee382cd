#!/usr/bin/env python3
"""Counts the processor's instructions for searches of three widths, by valgrind's callgrind.

    bench/search_instructions.py PROGRAM [--people N]

Each search is anonymous, over people under access control (served.py), and is sent so many times in a script of its own;
`replay` of a script that sends it once is taken from `replay` of that script, and what is left is shared among the searches
that it has more. So loading the tree and reading the script count for nothing, and the figure is the same on every call.
Each search is measured twice: for the mail addresses alone, and for all user attributes.
"""

import argparse
import pathlib
import re
import subprocess
import sys
import tempfile

from served import SUFFIX, data_file, element, message, text
from serve_operations import BASE, ONE_LEVEL, PEOPLE, SUBTREE, person_name

ALL = {"mail": element(0x30, text("mail")), "all": element(0x30, b"")}


def search(base, scope, limit, selection):
    """A search for all entries that have a class, up to the limit."""
    head = text(base) + bytes([10, 1, scope, 10, 1, 3, 2, 1, limit, 2, 1, 0, 1, 1, 0])
    return message(element(0x63, head + element(0x87, b"objectClass") + ALL[selection]))


def searches(people):
    """What is searched for, how often, and the request by the selection."""
    return [("one entry", 1000, lambda selection: search(person_name(people // 2), BASE, 0, selection)),
            ("one level with the limit 20", 100, lambda selection: search(PEOPLE, ONE_LEVEL, 20, selection)),
            (f"the subtree of {people} people", 2, lambda selection: search(SUFFIX, SUBTREE, 0, selection))]


def instructions(program, folder, request, count):
    """The instructions of `replay` of a script that sends the request so often."""
    script = folder / "searches.script"
    script.write_text("open 1\n" + f"send 1 {request.hex()}\n" * count + "end 1\n", encoding="ascii")
    words = ["valgrind", "--tool=callgrind", "--callgrind-out-file=/dev/null", program, "replay", folder / "people.ldif", script]
    done = subprocess.run(words, stdout=subprocess.PIPE, stderr=subprocess.PIPE, check=True)
    found = re.search(rb"Collected : (\d+)", done.stderr)
    return int(found[1]), len(done.stdout)


def main():
    parser = argparse.ArgumentParser(description=__doc__, formatter_class=argparse.RawDescriptionHelpFormatter)
    parser.add_argument("program")
    parser.add_argument("--people", type=int, default=10_000)
    asked = parser.parse_args()
    with tempfile.TemporaryDirectory() as name:
        folder = pathlib.Path(name)
        (folder / "people.ldif").write_text(data_file(asked.people), encoding="ascii")
        for what, more, request in searches(asked.people):
            for selection in ALL:
                one, short = instructions(asked.program, folder, request(selection), 1)
                many, long = instructions(asked.program, folder, request(selection), more + 1)
                if long <= short:
                    sys.exit(f"{what}: no answer to each")
                print(f"{what}, {selection}: {(many - one) // more:,}", flush=True)


if __name__ == "__main__":
    main()
