#!/usr/bin/env python3
"""Measures access control decisions in a served tree of many people.

    bench/serve_decisions.py PROGRAM [--people N]

Five tuples count for each person. A search of all people asks whether they have a mail address, once and then 41 times
joined by `and`: for each time more the server takes one decision a person, FilterMatch on the type, and looks whether
the attribute is there. What the 40 times more take is divided by their number.
"""

import argparse
import socket
import sys

from served import ADMIN, SUFFIX, ask, bind, element, message, seconds_of, served, text

DONE = bytes.fromhex("65070a010004000400")
MORE = 40
ROUNDS = 5


def search(times):
    asked = element(0xA0, element(0x87, b"mail") * times)
    head = text("ou=people," + SUFFIX) + bytes.fromhex("0a01010a0100020100020100010100")
    return message(element(0x63, head + asked + element(0x30, text("1.1"))))


def spent(pid, connection, request):
    """The processor seconds of one search, and how many entries it sent."""
    before = seconds_of(pid)
    entries = 0
    for _ in range(ROUNDS):
        connection.sendall(request)
        octets = b""
        while not octets.endswith(DONE):
            octets += connection.recv(1 << 20)
        entries = octets.count(b"uid=")
    return (seconds_of(pid) - before) / ROUNDS, entries


def main():
    words = argparse.ArgumentParser(description=__doc__)
    words.add_argument("program", nargs="+")
    words.add_argument("--people", type=int, default=20000)
    asked = words.parse_args()
    with served(asked.program, asked.people) as (pid, port):
        for who in ("anonymous", "named"):
            with socket.create_connection(("127.0.0.1", port)) as connection:
                if who == "named":
                    ask(connection, bind(ADMIN, "keys"), 0x61)
                once, _ = spent(pid, connection, search(1))
                often, entries = spent(pid, connection, search(1 + MORE))
                print(f"{who}: {(often - once) / MORE / entries * 1e9:.0f} ns a decision, over {entries} people")
    return 0


if __name__ == "__main__":
    sys.exit(main())
