#!/usr/bin/env python3
"""Measures `check` and `dump` of a data file of people beside OpenLDAP's slapadd and slapcat, where these are installed.

    bench/load_and_dump.py PROGRAM [--people N]

It prints the processor seconds of each, the least of three runs, and for ours the most memory. slapadd makes a new
database of the mdb kind in each run, without checks of its own (-q); ours checks each entry in each run, since it has no
database.
"""

import argparse
import os
import pathlib
import shutil
import subprocess
import sys
import tempfile

from data import make

RUNS = 3
SCHEMAS = "/etc/ldap/schema"
CONFIGURATION = """include {schemas}/core.schema
include {schemas}/cosine.schema
include {schemas}/inetorgperson.schema
moduleload back_mdb
database mdb
maxsize 1073741824
suffix "dc=bench"
directory {database}
index objectClass eq
"""


def spent(words):
    """The processor seconds of a run, which has to end well, and its most MiB."""
    with open(os.devnull, "wb") as nothing, subprocess.Popen(words, stdout=nothing) as child:
        _, status, usage = os.wait4(child.pid, 0)
        child.returncode = os.waitstatus_to_exitcode(status)
    if child.returncode:
        raise SystemExit(f"{words[0]} ended with {child.returncode}")
    return usage.ru_utime + usage.ru_stime, usage.ru_maxrss / 1024


def peers(folder, data):
    """The processor seconds of slapadd and of slapcat, each in a database of its own."""
    configuration, database, records = folder / "slapd.conf", folder / "database", folder / "records.ldif"
    # slapadd takes no line of the version with an empty line behind it
    records.write_text(pathlib.Path(data).read_text(encoding="ascii").removeprefix("version: 1\n\n"), encoding="ascii")
    configuration.write_text(CONFIGURATION.format(schemas=SCHEMAS, database=database), encoding="ascii")
    seconds = []
    for _ in range(RUNS):
        shutil.rmtree(database, ignore_errors=True)
        database.mkdir()
        added = spent(["slapadd", "-q", "-f", str(configuration), "-l", str(records)])[0]
        seconds.append((added, spent(["slapcat", "-f", str(configuration)])[0]))
    return [min(column) for column in zip(*seconds)]


def main():
    words = argparse.ArgumentParser(description=__doc__)
    words.add_argument("program", nargs="+")
    words.add_argument("--people", type=int, default=20000)
    asked = words.parse_args()
    with tempfile.TemporaryDirectory() as name:
        folder = pathlib.Path(name)
        data = str(folder / "people.ldif")
        make(data, asked.people + 2, False)
        for command in ("check", "dump"):
            seconds, memory = min(spent([*asked.program, command, data]) for _ in range(RUNS))
            print(f"{command} of {asked.people:,} people: {seconds:.2f} s, {memory:.0f} MiB")
        if shutil.which("slapadd"):
            for command, seconds in zip(("slapadd", "slapcat"), peers(folder, data)):
                print(f"{command} of {asked.people:,} people: {seconds:.2f} s")
    return 0


if __name__ == "__main__":
    sys.exit(main())
