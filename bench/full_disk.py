#!/usr/bin/env python3
"""Has a server store its changes on a disk of 1 MiB until that is full.

    bench/full_disk.py PROGRAM [--clients N] [--kib N]

It mounts a tmpfs of `--kib`, 1,024 by default, for the file of the changes, which only root can do: otherwise it says
so, and nothing else is done. Sixteen clients make changes of entries of their own (stored.py) until the server ends,
which has to be with the line `store fault` and a status above 0. `dump` has to show all that was acknowledged. Then
64 KiB of the disk are freed, and the next start has to take changes again, which are looked for as the first. It
prints a line for each step; the status is 1 where one is not as it should be.
"""

import argparse
import contextlib
import pathlib
import subprocess
import sys
import tempfile
import time

from stored import PATIENCE, Entries, by_client, counts, entries_in, put, run_clients, serving, write_data

FILLER = 65536
LINE = b"store fault\n"


@contextlib.contextmanager
def small_disk(folder, kib):
    """A disk of so many KiB in a folder below the folder; None where it can't be mounted."""
    place = folder / "disk"
    place.mkdir()
    words = ["mount", "-t", "tmpfs", "-o", f"size={kib}k,mode=700", "none", str(place)]
    mounted = subprocess.run(words, capture_output=True, check=False)
    if mounted.returncode:
        print(f"left out: no disk can be mounted here: {mounted.stderr.decode().strip()}")
        yield None
        return
    try:
        yield place
    finally:
        subprocess.run(["umount", str(place)], check=True)


def run_until_full(asked, data, changes, everyone):
    """Has changes made until the server ends; gives the clients, the status and what it put behind its first line."""
    with serving(asked.program, data, changes) as (server, port):
        clients = run_clients(port, everyone)
        for client in clients:
            client.join()
        try:
            said, _ = server.communicate(timeout=PATIENCE)
        except subprocess.TimeoutExpired:
            raise SystemExit("the server did not end") from None
        return clients, server.returncode, said


def look(asked, data, changes, clients):
    """Whether all that was acknowledged is there; says so."""
    own, _ = by_client(entries_in(put(asked.program, "dump", data, changes)))
    faults = [fault for client in clients if (fault := client.judge(own.get(client.entries.number, {}))[1])]
    for client in clients:
        client.entries.now = own.get(client.entries.number, {})
    counted, torn = counts(asked.program, data, changes)
    acknowledged = sum(client.acknowledged for client in clients)
    print(*faults, f"{acknowledged:,} acknowledged; the file has {counted:,} changes and a torn end of {torn} octets,"
                   f" {changes.stat().st_size:,} in all", sep="\n")
    return not faults


def main():
    words = argparse.ArgumentParser(description=__doc__, formatter_class=argparse.RawDescriptionHelpFormatter)
    words.add_argument("program", nargs="+")
    words.add_argument("--clients", type=int, default=16)
    words.add_argument("--kib", type=int, default=1024)
    asked = words.parse_args()
    everyone = [Entries(number, "full") for number in range(asked.clients)]
    with tempfile.TemporaryDirectory() as name, small_disk(pathlib.Path(name), asked.kib) as disk:
        if disk is None:
            return 0
        data, changes, filler = pathlib.Path(name) / "people.ldif", disk / "changes.ldif", disk / "filler"
        write_data(data, 100)
        filler.write_bytes(bytes(FILLER))
        clients, status, said = run_until_full(asked, data, changes, everyone)
        print(f"the disk was full: status {status}, {said!r}")
        good = said.endswith(LINE) and status > 0
        good &= look(asked, data, changes, clients)
        filler.unlink()
        before = sum(client.acknowledged for client in clients)
        with serving(asked.program, data, changes) as (server, port):
            clients = run_clients(port, everyone)
            until = time.monotonic() + PATIENCE
            while time.monotonic() < until and not any(client.acknowledged for client in clients):
                time.sleep(0.05)
            server.kill()
            for client in clients:
                client.join()
        after = sum(client.acknowledged for client in clients)
        print(f"started again with room: {after:,} changes behind the first {before:,}")
        good &= after > 0
        good &= look(asked, data, changes, clients)
    return 0 if good else 1


if __name__ == "__main__":
    sys.exit(main())
