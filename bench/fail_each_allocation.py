#!/usr/bin/env python3
"""Runs a replay over a data file once for each of its allocations, which then fails.

Each run has to end with status 8, or with the status and the lines of the run without a failure.
"""

import argparse
import os
import pathlib
import subprocess
import sys
import tempfile

HERE = pathlib.Path(__file__).resolve().parent
NO_MEMORY = 8


def build_library(folder):
    """Builds the library that makes an allocation fail, and gives its path."""
    library = folder / "failing_malloc.so"
    source = HERE / "failing_malloc.c"
    subprocess.run(["cc", "-shared", "-fPIC", "-O1", "-o", library, source], check=True)
    return library


def run(words, library, failing, folder):
    """Runs a replay with one failing allocation; gives its status, its lines and how many it made."""
    counted = folder / "allocations"
    counted.unlink(missing_ok=True)
    environment = dict(os.environ, LD_PRELOAD=str(library), FAIL_AT=str(failing))
    environment["ALLOCATIONS"] = str(counted)
    done = subprocess.run(words, env=environment, capture_output=True, check=False)
    return done.returncode, done.stdout, int(counted.read_text())


def try_script(program, data, script, library, folder):
    """Tries each allocation of a replay; gives whether all answers are allowed."""
    words = [program, "replay", "--dump", data, script]
    status, lines, allocations = run(words, library, 0, folder)
    refused = same = 0
    good = True
    for failing in range(1, allocations + 1):
        answer = run(words, library, failing, folder)
        if answer[0] == NO_MEMORY:
            refused += 1
        elif answer[:2] == (status, lines):
            same += 1
        else:
            good = False
            print(f"{script}: allocation {failing}: status {answer[0]}, {answer[1]!r}")
    print(f"{script}: {allocations} allocations, {refused} no memory, {same} the same answer")
    return good


def main():
    """Tries each script of the words."""
    words = argparse.ArgumentParser(description=__doc__)
    words.add_argument("--program", default=str(HERE.parent / "crates/aclserver/out/aclserver"))
    words.add_argument("data")
    words.add_argument("scripts", nargs="+")
    asked = words.parse_args()
    with tempfile.TemporaryDirectory() as name:
        folder = pathlib.Path(name)
        library = build_library(folder)
        results = [
            try_script(asked.program, asked.data, script, library, folder)
            for script in asked.scripts
        ]
    return 0 if all(results) else 1


if __name__ == "__main__":
    sys.exit(main())
