#!/usr/bin/env python3
"""Measures adds, modifies, renames and deletes over a tree of many people under access control.

    bench/serve_changes.py PROGRAM [--people N] [--changes N]

It makes a data file of N people, 10,000 where nothing else is said, with four access control subentries, serves it
with the program, binds as an administrator, adds so many people, gives each another telephone number, another name, and
deletes them again, and prints the processor time of the server for each, with the time that it took to start. Each
answer has to be success.
"""

import argparse
import socket
import sys

from served import ADMIN, SUFFIX, ask, bind, element, message, person, seconds_of, served, text


def add(name, attributes):
    given = b"".join(element(0x30, text(kind) + element(0x31, text(value))) for kind, value in attributes)
    return message(element(0x68, text(name) + element(0x30, given)))


def delete(name):
    return message(element(0x4A, name.encode()))


def modify(name):
    phone = text("telephoneNumber") + element(0x31, text("+1 555 0199"))
    change = element(0x30, element(0x0A, bytes([2])) + element(0x30, phone))
    return message(element(0x66, text(name) + element(0x30, change)))


def rename(name):
    return message(element(0x6C, text(name) + text(own_rdn(name, "m")) + element(1, bytes([255]))))


def own_rdn(name, letter):
    return "uid=" + letter + name.split(",")[0][5:]


def renamed(name):
    return own_rdn(name, "m") + "," + name.split(",", 1)[1]


CHANGES = (
    ("an add", 0x69, lambda name: add(name, person(1))),
    ("a modify", 0x67, modify),
    ("a rename", 0x6D, rename),
    ("a delete", 0x6B, lambda name: delete(renamed(name))),
)


def main():
    words = argparse.ArgumentParser(description=__doc__)
    words.add_argument("program", nargs="+")
    words.add_argument("--people", type=int, default=10000)
    words.add_argument("--changes", type=int, default=100)
    asked = words.parse_args()
    with served(asked.program, asked.people) as (pid, port):
        print(f"started over {asked.people} people: {seconds_of(pid):.2f} s")
        with socket.create_connection(("127.0.0.1", port)) as connection:
            ask(connection, bind(ADMIN, "keys"), 0x61)
            names = [f"uid=n{number},ou=people,{SUFFIX}" for number in range(asked.changes)]
            for what, kind, request in CHANGES:
                before = seconds_of(pid)
                for name in names:
                    ask(connection, request(name), kind)
                spent = (seconds_of(pid) - before) / asked.changes
                print(f"{what}: {spent * 1e6:.1f} us")
    return 0


if __name__ == "__main__":
    sys.exit(main())
