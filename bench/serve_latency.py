#!/usr/bin/env python3
"""Measures how long an answer takes over a tree of many people, at 1, 16 and 256 connections.

    bench/serve_latency.py PROGRAM [--people N] [--requests N]

Each connection sends a search of one person by name and waits for its answer before it sends the next. It prints the
answers in a second, and the latency of the middle answer, of the 99th of 100 and of the slowest, in microseconds. The
requests are sent by a program in C, clients.c, which `cc` makes.
"""

import argparse
import sys
import tempfile

from serve_operations import BASE, DONE, SUCCESS, person_name, search
from served import bind, clients_built, sent, served


def main():
    words = argparse.ArgumentParser(description=__doc__)
    words.add_argument("program", nargs="+")
    words.add_argument("--people", type=int, default=10000)
    words.add_argument("--requests", type=int, default=100000)
    asked = words.parse_args()
    request = search(person_name(asked.people // 2), BASE)
    with tempfile.TemporaryDirectory() as folder, served(asked.program, asked.people) as (_, port):
        clients = clients_built(folder)
        print("| connections | answers a second | middle | 99 of 100 | slowest |")
        print("|---:|---:|---:|---:|---:|")
        for connections in (1, 16, 256):
            numbers = sent(clients, port, (connections, 1, asked.requests), (DONE, SUCCESS), bind("", "") + request)
            print(f"| {connections} | " + " | ".join(f"{it:,}" for it in numbers) + " |")
    return 0


if __name__ == "__main__":
    sys.exit(main())
