#!/usr/bin/env python3
"""Measures changes a second of a server that stores them, at 1, 16 and 256 clients, beside what the disk can do.

    bench/serve_stored.py PROGRAM [--people N] [--changes N] [--folder FOLDER]

Each client sends a modify of one telephone number and waits for its answer before it sends the next; a modify is sent
`--changes` times in all, 5,000 by default (clients.c, which `cc` makes). The file of the changes lies below
`--folder`, the system's folder for temporary files by default. It prints the changes a second, the latency of the
middle one, of the 99th of 100 and of the slowest, and the server's processor time for one change, each in
microseconds; then the same of a server that stores nothing; and then what this disk can do: a plain loop appends the
record of such a change as often as there are clients and syncs, again and again, which is the most that can be had
where all of them share a sync.
"""

import argparse
import os
import pathlib
import sys
import tempfile
import time

from served import ADMIN, bind, clients_built, seconds_of, sent
from stored import MODIFIED, PEOPLE, REPLACE, modify, serving, write_data

CLIENTS = (1, 16, 256)
NUMBER = "+1 555 0199"
NAME = f"uid=own,{PEOPLE}"
RECORD = f"dn: {NAME}\nchangetype: modify\nreplace: telephoneNumber\ntelephoneNumber: {NUMBER}\n-\n\n".encode()
LOOP_SECONDS = 2


def print_rows(asked, clients, data, changes):
    """Prints a row for each number of clients."""
    messages = bind(ADMIN, "keys") + modify(NAME, [(REPLACE, "telephoneNumber", [NUMBER])])
    print("| clients | changes a second | middle | 99 of 100 | slowest | processor time |")
    print("|---:|---:|---:|---:|---:|---:|")
    for count in CLIENTS:
        with serving(asked.program, data, changes) as (server, port):
            before = seconds_of(server.pid)
            numbers = sent(clients, port, (count, 1, asked.changes), (MODIFIED, 0), messages)
            spent = (seconds_of(server.pid) - before) / asked.changes * 1e6
        print(f"| {count} | " + " | ".join(f"{it:,}" for it in numbers) + f" | {spent:.1f} |", flush=True)


def synced(path, octets):
    """How often in a second the octets are appended to a file and synced."""
    file = os.open(path, os.O_WRONLY | os.O_APPEND | os.O_CREAT, 0o600)
    try:
        count, start = 0, time.monotonic()
        while time.monotonic() < start + LOOP_SECONDS:
            os.write(file, octets)
            os.fdatasync(file)
            count += 1
        return count / (time.monotonic() - start)
    finally:
        os.close(file)


def main():
    words = argparse.ArgumentParser(description=__doc__, formatter_class=argparse.RawDescriptionHelpFormatter)
    words.add_argument("program", nargs="+")
    words.add_argument("--people", type=int, default=10000)
    words.add_argument("--changes", type=int, default=5000)
    words.add_argument("--folder")
    asked = words.parse_args()
    with tempfile.TemporaryDirectory(dir=asked.folder) as name:
        folder = pathlib.Path(name)
        data, clients = folder / "people.ldif", clients_built(name)
        write_data(data, asked.people)
        print("with the changes stored")
        print_rows(asked, clients, data, folder / "changes.ldif")
        print("without")
        print_rows(asked, clients, data, None)
        print(f"| records of {len(RECORD)} octets a sync | syncs a second | ms a sync | records a second |")
        print("|---:|---:|---:|---:|")
        for count in CLIENTS:
            syncs = synced(folder / "loop", RECORD * count)
            print(f"| {count} | {syncs:,.0f} | {1000 / syncs:.2f} | {syncs * count:,.0f} |", flush=True)
    return 0


if __name__ == "__main__":
    sys.exit(main())
