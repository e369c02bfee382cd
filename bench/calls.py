#!/usr/bin/env python3
"""Measures calls by themselves: keys and names, values of an attribute, subtree specifications, trees and records, or
messages.

The program of that name in the folder calls is built beside copies of the crates that it uses, and run.
"""

import argparse
import pathlib
import shutil
import subprocess
import sys
import tempfile
from typing import NamedTuple

HERE = pathlib.Path(__file__).resolve().parent
CRATES = HERE.parent / "crates"


class Program(NamedTuple):
    """What a program names, and the program's own files."""

    named: tuple
    files: dict


PROGRAMS = {
    "messages": Program(
        ("ldap_msg",),
        {"src/main.rt": "messages.txt"},
    ),
    "names": Program(
        ("dn_names", "match_rules"),
        {"src/main.rt": "names.txt"},
    ),
    "subtrees": Program(
        ("subtree_spec",),
        {"src/main.rt": "subtrees.txt"},
    ),
    "values": Program(
        ("value_lists", "dn_names", "schema_tables"),
        {"src/main.rt": "values.txt"},
    ),
    "trees": Program(
        ("ldif_records", "dir_tree", "dn_names"),
        {
            "src/main.rt": "trees.txt",
            "proofs/read_all/Invariants.antt": "trees_places.txt",
        },
    ),
}


def used_by(names, lines):
    """The lines of the crates of these names and of all that they stand on."""
    named = {line.split(":")[0]: line for line in lines if ":" in line and not line.startswith("#")}
    used, left = {}, list(names)
    while left:
        name = left.pop()
        if name in named and name not in used:
            used[name] = named[name]
            left += named[name].split(":")[1].split()
    return used


def make_repository(folder, program):
    """Puts the crates, their list and the program into a folder; gives the program's own."""
    used = used_by(program.named, (HERE.parent / "crates.txt").read_text().splitlines())
    chosen = [*used.values(), "bench_calls: " + " ".join(program.named)]
    folder.mkdir(parents=True, exist_ok=True)
    (folder / "crates.txt").write_text("\n".join(chosen) + "\n")
    for crate in used:
        shutil.copytree(CRATES / crate, folder / "crates" / crate)
    own = folder / "crates" / "bench_calls"
    for target, source in program.files.items():
        (own / target).parent.mkdir(parents=True, exist_ok=True)
        shutil.copy(HERE / "calls" / source, own / target)
    return own


def main():
    """Builds the program and runs it."""
    words = argparse.ArgumentParser(description=__doc__)
    words.add_argument("program", choices=sorted(PROGRAMS))
    words.add_argument("--folder", help="where to build; kept afterwards, for a second run")
    asked = words.parse_args()
    with tempfile.TemporaryDirectory() as name:
        folder = pathlib.Path(asked.folder or name)
        own = folder / "crates" / "bench_calls"
        if not own.exists():
            own = make_repository(folder, PROGRAMS[asked.program])
        return subprocess.run(["rt", "run"], cwd=own, check=False).returncode


if __name__ == "__main__":
    sys.exit(main())
