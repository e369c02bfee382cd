#!/usr/bin/env python3
"""Measures operations over a tree of many people under access control, beside OpenLDAP's slapd where it is installed.

    bench/serve_operations.py PROGRAM [--people N] [--members N] [--rounds N] [--threads N] [--pinned]

A program in C, clients.c, which `cc` makes, sends each operation on 8 connections with 16 requests outstanding on each,
binds one by one. It prints the microseconds of the server's processor time for one: the best and the worst round, first
of ours and then of slapd. With members the administrators are a group of so many; without, one person is named. The
rules of slapd are those of the data file, as near as its own language has them, and its database isn't synchronized to
the disk. It has so many threads, its own default where nothing is said; pinned, all of them run on one processor.
"""

import argparse
import contextlib
import os
import pathlib
import shutil
import socket
import subprocess
import sys
import tempfile
import time
from typing import NamedTuple

from serve_changes import modify
from served import (ADMIN, FIRST, GROUP, OWN, SUFFIX, bind, clients_built, element, free_port, group_record, message,
                    people_records, seconds_of, sent, served, text)

BOUND, DONE, MODIFIED, COMPARED = 0x61, 0x65, 0x67, 0x6F
SUCCESS, SIZE_LIMIT_EXCEEDED, COMPARE_TRUE, NO_SUCH_OBJECT = 0, 4, 6, 32
BASE, ONE_LEVEL, SUBTREE = 0, 1, 2
CONNECTIONS, OUTSTANDING = 8, 16
PEOPLE = "ou=people," + SUFFIX
SCHEMAS = "/etc/ldap/schema"
CONFIGURATION = """include {schemas}/core.schema
include {schemas}/cosine.schema
include {schemas}/inetorgperson.schema
moduleload back_mdb
pidfile {folder}/pid
loglevel 0
{threads}
database mdb
maxsize 1073741824
suffix "{suffix}"
directory {folder}/database
dbnosync
index objectClass,uid,mail eq
access to dn.subtree="ou=closed,{suffix}" by {keepers} write by * none
access to attrs=userPassword by {keepers} write by anonymous auth by * none
access to dn.subtree="{people}" attrs=telephoneNumber by {keepers} write by self write by * read
access to * by {keepers} write by * read
"""
RECORDS = f"""dn: {SUFFIX}
objectClass: organization
o: bench

dn: {PEOPLE}
objectClass: organizationalUnit
ou: people

dn: ou=closed,{SUFFIX}
objectClass: organizationalUnit
ou: closed

dn: uid=hidden,ou=closed,{SUFFIX}
objectClass: inetOrgPerson
cn: Hidden
sn: Hidden

dn: {ADMIN}
objectClass: inetOrgPerson
cn: Keeper
sn: Keeper
userPassword: keys

dn: {OWN}
objectClass: inetOrgPerson
cn: Own
sn: Own
userPassword: keys
"""


def person_name(number):
    """The name of the person of this number, from 0."""
    return f"uid=p{FIRST + number},{PEOPLE}"


def search(base, scope, limit=0, mail=""):
    """A search for mail addresses: of all that have a class, or of those with the address."""
    head = text(base) + bytes([10, 1, scope, 10, 1, 3, 2, 1, limit, 2, 1, 0, 1, 1, 0])
    asked = element(0xA3, text("mail") + text(mail)) if mail else element(0x87, b"objectClass")
    return message(element(0x63, head + asked + element(0x30, text("mail"))))


def compare(name, kind, value):
    return message(element(0x6E, text(name) + element(0x30, text(kind) + text(value))))


class Operation(NamedTuple):
    """An operation, who asks for it, the last tag and the code of its answer, and how many are sent."""

    what: str
    who: str
    request: bytes
    answer: tuple
    requests: int


def operations(people):
    middle = people // 2
    name, mail = person_name(middle), f"p{FIRST + middle}@bench.example"
    absent, hidden = "uid=none," + PEOPLE, "uid=hidden,ou=closed," + SUFFIX
    found, limited, missing = (DONE, SUCCESS), (DONE, SIZE_LIMIT_EXCEEDED), (DONE, NO_SUCH_OBJECT)
    page = search(PEOPLE, ONE_LEVEL, 20)
    return [
        Operation("a search of one entry", OWN, search(name, BASE), found, 200000),
        Operation("a search of an entry that is not there", OWN, search(absent, BASE), missing, 200000),
        Operation("a search of an entry that may not be known of", OWN, search(hidden, BASE), missing, 200000),
        Operation("a search of one level with the limit 20", OWN, page, limited, 10000),
        Operation("the same by an administrator", ADMIN, page, limited, 10000),
        Operation("a search of all for a mail address", OWN, search(SUFFIX, SUBTREE, 0, mail), found, 200000),
        Operation("a compare", OWN, compare(name, "mail", mail), (COMPARED, COMPARE_TRUE), 200000),
        Operation("a bind with a password in clear", OWN, bind(OWN, "keys"), (BOUND, SUCCESS), 100000),
        Operation("a modify of one's own telephone number", OWN, modify(OWN), (MODIFIED, SUCCESS), 100000),
    ]


def spent(clients, pid, port, operation):
    """The microseconds of the server's processor time for one operation."""
    outstanding = 1 if operation.answer[0] == BOUND else OUTSTANDING
    load = CONNECTIONS, outstanding, operation.requests
    before = seconds_of(pid)
    sent(clients, port, load, operation.answer, bind(operation.who, "keys") + operation.request)
    return (seconds_of(pid) - before) / operation.requests * 1e6


def peer_files(folder, asked):
    """Writes what slapd is configured with, and its database; gives the path of the configuration."""
    folder, files = pathlib.Path(folder), {}
    keepers, records = f'dn.exact="{ADMIN}"', [RECORDS]
    if asked.members:
        keepers = f'group.exact="{GROUP}"'
        records.append(group_record(asked.members).replace("\n", "\ncn: keepers\n", 1))
    files["records.ldif"] = "\n".join([*records, *people_records(asked.people)])
    files["slapd.conf"] = CONFIGURATION.format(
        schemas=SCHEMAS, folder=folder, suffix=SUFFIX, people=PEOPLE, keepers=keepers,
        threads=f"threads {asked.threads}" if asked.threads else "")
    for name, content in files.items():
        (folder / name).write_text(content, encoding="ascii")
    (folder / "database").mkdir()
    configuration = str(folder / "slapd.conf")
    subprocess.run(["slapadd", "-q", "-f", configuration, "-l", folder / "records.ldif"], check=True)
    return configuration


@contextlib.contextmanager
def peer(asked):
    """OpenLDAP's server over the same people: its process number and its port."""
    port = free_port()
    with tempfile.TemporaryDirectory() as folder:
        words = ["slapd", "-d", "0", "-h", f"ldap://127.0.0.1:{port}", "-f", peer_files(folder, asked)]
        server = subprocess.Popen(["taskset", "-c", "1", *words] if asked.pinned else words)
        try:
            while True:
                try:
                    socket.create_connection(("127.0.0.1", port), 5).close()
                    break
                except ConnectionRefusedError:
                    time.sleep(0.1)
            yield server.pid, port
        finally:
            server.terminate()
            server.wait()


def resident(pid):
    """The octets of a process's resident memory."""
    return int(pathlib.Path(f"/proc/{pid}/statm").read_text(encoding="ascii").split()[1]) * os.sysconf("SC_PAGE_SIZE")


def rounds(clients, server, asked):
    """The microseconds of each operation, in each round."""
    pid, port = server
    return [[spent(clients, pid, port, it) for _ in range(asked.rounds)] for it in operations(asked.people)]


def main():
    words = argparse.ArgumentParser(description=__doc__)
    words.add_argument("program", nargs="+")
    words.add_argument("--people", type=int, default=10000)
    words.add_argument("--members", type=int, default=0)
    words.add_argument("--rounds", type=int, default=3)
    words.add_argument("--threads", type=int, default=0)
    words.add_argument("--pinned", action="store_true")
    asked = words.parse_args()
    columns = []
    with tempfile.TemporaryDirectory() as folder:
        clients = clients_built(folder)
        with served(asked.program, asked.people, asked.members) as server:
            print(f"{resident(server[0]) / asked.people:,.0f} octets of resident memory a person")
            columns.append(rounds(clients, server, asked))
        if shutil.which("slapd"):
            with peer(asked) as server:
                columns.append(rounds(clients, server, asked))
    print("| operation | best | worst |" + " slapd, best | slapd, worst |" * (len(columns) - 1))
    print("|---|---:|---:|" + "---:|---:|" * (len(columns) - 1))
    for number, operation in enumerate(operations(asked.people)):
        numbers = [f"{choice(column[number]):.1f}" for column in columns for choice in (min, max)]
        print(f"| {operation.what} | " + " | ".join(numbers) + " |")
    return 0


if __name__ == "__main__":
    sys.exit(main())
