#!/usr/bin/env python3
"""Serves a small directory to three connections once for each allocation of the server, which is then refused.

    bench/cut_connections.py PROGRAM [--first N] [--last N]

The three connections ask in turn; each request is sent when the answer to the one before it came, or its connection
was closed. Without a refused allocation each gets all of its replies. With one, a connection may be closed behind a
front of its replies, but one alone, of the three or of a fourth that is opened afterwards; the others get all of
theirs. A server that wants memory before it listens, or to hold a connection that opens, ends with
status 8. The status is 1 where something was not as it should be.
"""

import argparse
import os
import pathlib
import select
import socket
import subprocess
import sys
import tempfile

from fail_each_allocation import NO_MEMORY, build_library
from served import ADMIN, HEAD, SUFFIX, bind, element, free_port, message, text

BOUND = bytes.fromhex("300c02010161070a010004000400")


def search(base, scope):
    operation = (text(base) + bytes([10, 1, scope, 10, 1, 0, 2, 1, 0, 2, 1, 0, 1, 1, 0])
                 + element(0x87, b"objectClass") + element(0x30, b""))
    return message(element(0x63, operation))


def add(name):
    classes = element(0x30, text("objectClass") + element(0x31, text("inetOrgPerson")))
    others = b"".join(element(0x30, text(kind) + element(0x31, text("New"))) for kind in ("cn", "sn"))
    return message(element(0x68, text(name) + element(0x30, classes + others)))


def delete(name):
    return message(element(0x4a, name.encode()))


NEW = f"uid=new,ou=people,{SUFFIX}"
# What each connection asks for, in the order of its requests; no answer to the second and the third goes by what the
# first changes.
ASKED = [
    [bind(ADMIN, "keys"), add(NEW), search(NEW, 0), delete(NEW)],
    [bind("", ""), search(SUFFIX, 1), search(ADMIN, 0), search("ou=none," + SUFFIX, 0)],
    [bind(ADMIN, "keys"), search(SUFFIX, 0), search(ADMIN, 0), bind(ADMIN, "no")],
]


def last_of(octets):
    """Whether the octets end with a whole message that ends the replies to a request; None where they are no messages."""
    at, ends = 0, False
    while at < len(octets):
        if len(octets) < at + 2:
            return False
        size, head = octets[at + 1], 2
        if size & 0x80:
            count = size & 0x7F
            size, head = int.from_bytes(octets[at + 2:at + 2 + count], "big"), 2 + count
        if len(octets) < at + head + size:
            return False
        ends = octets[at + head + 3] != 0x64
        at += head + size
    return ends


def replies(connection, request):
    """What is answered to a request, and whether the connection was closed before that was whole."""
    octets = b""
    try:
        connection.sendall(request)
        while not last_of(octets):
            if not select.select([connection], [], [], 5)[0]:
                return octets, True
            more = connection.recv(1 << 16)
            if not more:
                return octets, True
            octets += more
    except OSError:
        return octets, True
    return octets, False


class Run:
    """One server, whose allocation of this number is refused: what each connection got, and whether it was closed."""

    def __init__(self, program, data, library, failing, folder):
        self.counted = folder / "allocations"
        environment = dict(os.environ, LD_PRELOAD=str(library), FAIL_AT=str(failing), ALLOCATIONS=str(self.counted))
        port = free_port()
        self.got = [b"", b"", b""]
        self.closed = [False, False, False]
        self.answered = False
        words = program + ["serve", str(data), f"127.0.0.1:{port}"]
        server = subprocess.Popen(words, env=environment, stdout=subprocess.PIPE)
        self.status = None
        try:
            if server.stdout.readline():
                try:
                    self.ask(port)
                except OSError:
                    self.status = server.wait(5)
                else:
                    self.status = server.poll()
            else:
                self.status = server.wait(5)
        finally:
            server.kill()
            server.wait()

    def ask(self, port):
        connections = [socket.create_connection(("127.0.0.1", port), 5) for _ in ASKED]
        for turn in range(len(ASKED[0])):
            for number, connection in enumerate(connections):
                if not self.closed[number]:
                    octets, self.closed[number] = replies(connection, ASKED[number][turn])
                    self.got[number] += octets
        with socket.create_connection(("127.0.0.1", port), 5) as after:
            self.answered = replies(after, bind("", ""))[0] == BOUND
        for connection in connections:
            connection.close()


def is_right(run, whole):
    """Whether at most one connection was cut, behind a front of its replies, and all else is as it was."""
    if run.status is not None:
        # it wanted memory before it listened, or to hold a connection that opened: one of the three, or the fourth
        return run.status == NO_MEMORY and run.got in ([b"", b"", b""], whole.got)
    cut = [number for number in range(3) if run.closed[number]]
    fronts = all(whole.got[number].startswith(run.got[number]) for number in cut)
    others = [number for number in range(3) if number not in cut]
    return len(cut) + (not run.answered) <= 1 and fronts and all(run.got[number] == whole.got[number] for number in others)


def main():
    words = argparse.ArgumentParser(description=__doc__)
    words.add_argument("program", nargs="+")
    words.add_argument("--first", type=int, default=1)
    words.add_argument("--last", type=int, default=1 << 30)
    asked = words.parse_args()
    good = True
    with tempfile.TemporaryDirectory() as name:
        folder = pathlib.Path(name)
        library = build_library(folder)
        data = folder / "data.ldif"
        data.write_text(HEAD, encoding="ascii")
        whole = Run(asked.program, data, library, 0, folder)
        if any(whole.closed) or not whole.answered:
            print("a connection was closed though no allocation was refused")
            return 1
        ended = cut = same = late = 0
        failing = asked.first
        while failing <= asked.last:
            run = Run(asked.program, data, library, failing, folder)
            if not is_right(run, whole):
                good = False
                print(f"allocation {failing}: status {run.status}, closed {run.closed}, answered {run.answered}")
            if run.status is not None:
                ended += 1
            elif any(run.closed) or not run.answered:
                cut += 1
            else:
                same += 1
                late += 1
                # past the last allocation nothing is refused any more
                if late > 40:
                    break
            failing += 1
        print(f"{failing} runs: {ended} ended without memory, {cut} cut one connection, {same} cut none")
    return 0 if good else 1


if __name__ == "__main__":
    sys.exit(main())
