#!/usr/bin/env python3
"""Kills a server that stores its changes at moments of chance, and looks whether all that it acknowledged is there.

    bench/crash_changes.py PROGRAM [--rounds N] [--anew] [--lossy] [--clients N] [--seconds S] [--people N]
                           [--folder FOLDER] [--seed WORD]

In each round it starts `serve DATA ADDRESS --changes FILE` on loopback. Each of 16 clients adds, modifies, renames
and deletes entries of its own, one change after the answer to the one before, and notes what was acknowledged. Within
`--seconds`, 0.3 by default, the server is killed by signal 9. Then `check` has to accept FILE, and `dump` has to show
of each client's entries what its acknowledged changes leave, or these and the one that was outstanding; all other
entries have to be those of DATA, and `check` has to count as many changes as `dump` shows. FILE grows from round to
round, and the next start reads it; with `--anew` it begins anew in each. Before one round of four another server is
killed while it starts, and the next has to start all the same. With `--lossy` the kill takes besides all that was
appended and not yet synced, and leaves a front of it now and then, by the library lossy_disk.c, which `cc` builds.
FILE lies in a folder below `--folder`, the system's for temporary files by default. A round at fault is printed, and
the status is 1 then; the last line counts.
"""

import argparse
import os
import pathlib
import random
import subprocess
import sys
import tempfile
import time

from served import free_port
from stored import Entries, by_client, counts, entries_in, put, run_clients, serving, start, write_data

STARTS_KILLED = 0.25  # the share of rounds before which a server is killed that does not listen yet


class Trial:
    """Rounds over one data file and one file of changes."""

    def __init__(self, asked, folder):
        self.asked = asked
        self.chance = random.Random(asked.seed)
        self.data, self.changes = folder / "people.ldif", folder / "changes.ldif"
        write_data(self.data, asked.people)
        self.untouched = by_client(entries_in(put(asked.program, "dump", self.data)))[1]
        self.environment = lossy(folder) if asked.lossy else None
        self.begin()
        self.acknowledged = self.besides = self.torn = self.octets = self.starts = 0
        self.seconds = 0.0  # how long the last start took

    def begin(self):
        """No change was made yet."""
        self.changes.unlink(missing_ok=True)
        self.everyone = [Entries(number, self.asked.seed) for number in range(self.asked.clients)]
        self.there = 0

    def kill_start(self):
        """Kills a server that does not listen yet, or hardly."""
        server = start(self.asked.program, free_port(), self.data, self.changes, self.environment)
        time.sleep(self.chance.uniform(0, self.seconds))
        server.kill()
        server.communicate()
        self.starts += 1

    def run_killed(self):
        """Has the clients make changes until the server is killed; gives the clients."""
        before = time.monotonic()
        with serving(self.asked.program, self.data, self.changes, self.environment) as (server, port):
            self.seconds = time.monotonic() - before
            clients = run_clients(port, self.everyone)
            time.sleep(self.chance.uniform(0, self.asked.seconds))
            server.kill()
            for client in clients:
                client.join()
        return clients

    def judge(self, clients):
        """The faults of what is there, in words."""
        own, others = by_client(entries_in(put(self.asked.program, "dump", self.data, self.changes)))
        faults = [] if others == self.untouched else ["entries of nobody were changed"]
        for client in clients:
            count, fault = client.judge(own.get(client.entries.number, {}))
            faults += [fault] if fault else []
            self.acknowledged += client.acknowledged
            self.besides += (count or 0) > client.acknowledged
            self.there += count or 0
            client.entries.now = own.get(client.entries.number, {})
        counted, torn = counts(self.asked.program, self.data, self.changes)
        self.torn += torn > 0
        self.octets = max(self.octets, self.changes.stat().st_size)
        if counted != self.there:
            faults.append(f"check counts {counted} changes, dump shows {self.there}")
        return faults

    def round(self):
        if self.asked.anew:
            self.begin()
        if self.seconds and self.chance.random() < STARTS_KILLED:
            self.kill_start()
        return self.judge(self.run_killed())


def lossy(folder):
    """Builds the library of the lossy disk, and gives an environment with it."""
    library, source = folder / "lossy_disk.so", pathlib.Path(__file__).resolve().parent / "lossy_disk.c"
    subprocess.run(["cc", "-shared", "-fPIC", "-O1", "-o", str(library), str(source)], check=True)
    return dict(os.environ, LD_PRELOAD=str(library))


def main():
    words = argparse.ArgumentParser(description=__doc__, formatter_class=argparse.RawDescriptionHelpFormatter)
    words.add_argument("program", nargs="+")
    words.add_argument("--rounds", type=int, default=200)
    words.add_argument("--anew", action="store_true")
    words.add_argument("--lossy", action="store_true")
    words.add_argument("--clients", type=int, default=16)
    words.add_argument("--seconds", type=float, default=0.3)
    words.add_argument("--people", type=int, default=100)
    words.add_argument("--folder")
    words.add_argument("--seed", default="crash")
    asked = words.parse_args()
    faulty = 0
    with tempfile.TemporaryDirectory(dir=asked.folder) as folder:
        trial = Trial(asked, pathlib.Path(folder))
        for number in range(1, asked.rounds + 1):
            faults = trial.round()
            faulty += bool(faults)
            for fault in faults:
                print(f"round {number}: {fault}", flush=True)
    print(f"{asked.rounds} rounds, {faulty} at fault: {trial.acknowledged:,} changes acknowledged, {trial.besides}"
          f" there besides that were outstanding, {trial.torn} torn ends, {trial.starts} starts killed, a file of"
          f" {trial.octets:,} octets at most")
    return 1 if faulty else 0


if __name__ == "__main__":
    sys.exit(main())
