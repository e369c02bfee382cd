#!/usr/bin/env python3
"""Applies a file of changes, as the server stored it, to OpenLDAP's server by ldapmodify.

    bench/changes_to_slapd.py PROGRAM [--clients N] [--changes N]

It needs slapd, slapadd, slapcat and ldapmodify (Debian's packages slapd and ldap-utils). The program serves a tree of
ordinary people, some clients make changes of entries of their own (stored.py), 50 each by default, and the server is
stopped. slapd gets the same people, without the access control, of which it knows nothing, and ldapmodify the file as
it is. It prints how many records there are, how many of them ldapmodify applied, and for how many clients slapcat
then shows the entries that their changes leave; the status is 1 where these are not all.
"""

import argparse
import contextlib
import pathlib
import shutil
import socket
import subprocess
import sys
import tempfile
import time

from served import ADMIN, SUFFIX, free_port
from stored import Entries, by_client, counts, entries_in, run_clients, serving, write_data

SCHEMAS = "/etc/ldap/schema"
SECRET = "keys"
CONFIGURATION = """include {schemas}/core.schema
include {schemas}/cosine.schema
include {schemas}/inetorgperson.schema
moduleload back_mdb
pidfile {folder}/slapd.pid
database mdb
suffix "{suffix}"
rootdn "cn=root,{suffix}"
rootpw {secret}
directory {folder}/database
"""


def without_access_control(text):
    """The records of a data file without those of access control, and without what makes an administrative point."""
    records = [record for record in text.strip().split("\n\n") if "accessControlSubentry" not in record]
    lines = "\n\n".join(records).split("\n")
    return "\n".join(line for line in lines if not line.startswith("administrativeRole:")) + "\n"


def configured(folder, data):
    """Gives slapd the people of the data file; gives the path of its configuration."""
    configuration, records = str(folder / "slapd.conf"), str(folder / "records.ldif")
    (folder / "database").mkdir()
    pathlib.Path(configuration).write_text(
        CONFIGURATION.format(schemas=SCHEMAS, folder=folder, suffix=SUFFIX, secret=SECRET), encoding="ascii")
    pathlib.Path(records).write_text(without_access_control(data.read_text(encoding="ascii")), encoding="ascii")
    subprocess.run(["slapadd", "-q", "-f", configuration, "-l", records], check=True)
    return configuration


@contextlib.contextmanager
def peer(configuration):
    """OpenLDAP's server: its URL."""
    port = free_port()
    url = f"ldap://127.0.0.1:{port}"
    server = subprocess.Popen(["slapd", "-d", "0", "-h", url, "-f", configuration])
    try:
        while server.poll() is None:
            with contextlib.suppress(ConnectionRefusedError):
                socket.create_connection(("127.0.0.1", port), 5).close()
                break
            time.sleep(0.1)
        yield url
    finally:
        server.terminate()
        server.wait()


def applied(url, changes):
    """Gives the file to ldapmodify; gives how many records it applied, and what it said of the others."""
    words = ["ldapmodify", "-v", "-c", "-x", "-H", url, "-D", f"cn=root,{SUFFIX}", "-w", SECRET, "-f", str(changes)]
    ran = subprocess.run(words, capture_output=True, text=True, errors="replace", check=False)
    return sum(ran.stdout.count(f"{it} complete") for it in ("modify", "delete", "rename")), ran.stderr.strip()


def sorted_values(entries):
    """Entries whose values are in order, without what slapd adds to each by itself."""
    kinds = "objectClass", "uid", "cn", "sn", "mail", "telephoneNumber", "description"
    return {name: {kind: sorted(entry[kind]) for kind in kinds if kind in entry} for name, entry in entries.items()}


def stored_changes(asked, data, changes):
    """Has the changes made; gives the clients."""
    with serving(asked.program, data, changes) as (_, port):
        clients = run_clients(port, [Entries(number, "slapd") for number in range(asked.clients)], asked.changes)
        for client in clients:
            client.join()
            if client.fault:
                raise SystemExit(client.fault)
    return clients


def main():
    words = argparse.ArgumentParser(description=__doc__, formatter_class=argparse.RawDescriptionHelpFormatter)
    words.add_argument("program", nargs="+")
    words.add_argument("--clients", type=int, default=16)
    words.add_argument("--changes", type=int, default=50)
    asked = words.parse_args()
    missing = [it for it in ("slapd", "slapadd", "slapcat", "ldapmodify") if not shutil.which(it)]
    if missing:
        print(f"left out: {' '.join(missing)} not installed")
        return 0
    with tempfile.TemporaryDirectory() as name:
        folder = pathlib.Path(name)
        data, changes = folder / "people.ldif", folder / "changes.ldif"
        write_data(data, 100)
        clients = stored_changes(asked, data, changes)
        records, _ = counts(asked.program, data, changes)
        configuration = configured(folder, data)
        with peer(configuration) as url:
            done, said = applied(url, changes)
        shown = subprocess.run(["slapcat", "-f", configuration], stdout=subprocess.PIPE, check=True).stdout
    own, _ = by_client(entries_in(shown))
    same = sum(sorted_values(own.get(it.entries.number, {})) == sorted_values(it.entries.now) for it in clients)
    print(f"{records:,} records, {done:,} applied by ldapmodify; {same} of {len(clients)} clients have the entries"
          f" there that their changes leave")
    print(said, file=sys.stderr) if said else None
    return 0 if done == records and same == len(clients) else 1


if __name__ == "__main__":
    sys.exit(main())
