#!/usr/bin/env python3
"""Measures binds over a tree of many people: with a password that is kept as it is, and with one kept as its digest.

    bench/serve_binds.py PROGRAM [--people N] [--binds N]

Binds are sent in pieces of 64 on one connection, and each answer has to be success. It prints the processor time of the
server for a bind of each kind.
"""

import argparse
import socket
import sys

from served import ADMIN, SUFFIX, bind, seconds_of, served

PIECE = 64
BOUND = bytes.fromhex("300c02010161070a010004000400")


def spent(pid, port, name, binds):
    """The processor seconds of one bind."""
    request = bind(name, "keys") * PIECE
    with socket.create_connection(("127.0.0.1", port)) as connection:
        before = seconds_of(pid)
        for _ in range(binds // PIECE):
            connection.sendall(request)
            octets = b""
            while len(octets) < len(BOUND) * PIECE:
                octets += connection.recv(1 << 16)
            if octets != BOUND * PIECE:
                raise SystemExit("not success: " + octets[:64].hex())
        return (seconds_of(pid) - before) / (binds // PIECE * PIECE)


def main():
    words = argparse.ArgumentParser(description=__doc__)
    words.add_argument("program", nargs="+")
    words.add_argument("--people", type=int, default=10000)
    words.add_argument("--binds", type=int, default=200000)
    asked = words.parse_args()
    with served(asked.program, asked.people) as (pid, port):
        for what, name in (("as it is", ADMIN), ("as its digest", f"uid=digest,ou=people,{SUFFIX}")):
            print(f"a password kept {what}: {spent(pid, port, name, asked.binds) * 1e6:.1f} us a bind")
    return 0


if __name__ == "__main__":
    sys.exit(main())
