"""A server of the program that stores its changes in a file, clients that make changes of entries of their own, and
what `dump` and `check` say of the file."""

import base64
import contextlib
import pathlib
import random
import re
import socket
import subprocess
import threading

from served import ADMIN, SUFFIX, bind, data_file, element, free_port, message, text

PEOPLE = "ou=people," + SUFFIX
BOUND, ADDED, DELETED, MODIFIED, RENAMED = 0x61, 0x69, 0x6B, 0x67, 0x6D
ADD, DELETE, REPLACE = 0, 1, 2
MOST_ENTRIES = 8
PATIENCE = 60


def attribute(kind, values):
    return element(0x30, text(kind) + element(0x31, b"".join(text(value) for value in values)))


def add(name, attributes):
    given = b"".join(attribute(kind, values) for kind, values in attributes.items())
    return message(element(0x68, text(name) + element(0x30, given)))


def delete(name):
    return message(element(0x4A, name.encode()))


def modify(name, changes):
    """A modify by changes, each an operation, a type and its values."""
    given = b"".join(element(0x30, element(0x0A, bytes([operation])) + attribute(kind, values))
                     for operation, kind, values in changes)
    return message(element(0x66, text(name) + element(0x30, given)))


def rename(name, rdn, deletes_old):
    return message(element(0x6C, text(name) + text(rdn) + element(1, bytes([255 if deletes_old else 0]))))


class Entries:
    """The entries of one client, by name, each its values by type; and changes of them, each of which leaves something
    that none before it left."""

    def __init__(self, number, seed):
        self.number = number
        self.chance = random.Random(f"{seed} {number}")
        self.count = 0
        self.now = {}

    def words(self):
        """A value that was not there before: as it is, or of octets that a record has to write in base64."""
        return self.chance.choice(["note {}", "Gr\u00fc\u00dfe {}", " led by a space {}", "ended by one {} ", ": {}",
                                   "{} is long" + " and longer" * 20]).format(self.count)

    def rdn(self):
        return f"c{self.number}n{self.count}"

    def change(self):
        """A change: the request, the tag of its answer, and the entries after it."""
        self.count += 1
        if not self.now:
            return self.addition()
        kinds = [self.addition, self.replacement, self.exchange, self.renaming, self.deletion]
        full = len(self.now) >= MOST_ENTRIES
        return self.chance.choice(kinds[1:] if full else kinds)()

    def some(self):
        return self.chance.choice(sorted(self.now))

    def but(self, name, values):
        """The entries with other values of the types."""
        changed = {kind: given for kind, given in {**self.now[name], **values}.items() if given}
        return {**self.now, name: changed}

    def addition(self):
        name = f"uid={self.rdn()},{PEOPLE}"
        given = {"objectClass": ["inetOrgPerson"], "uid": [self.rdn()], "cn": [f"Person {self.count}"],
                 "sn": [self.words()], "telephoneNumber": [f"+1 555 {self.count}", f"+1 556 {self.count}"]}
        return add(name, given), ADDED, {**self.now, name: given}

    def replacement(self):
        name, kind, values = self.some(), "telephoneNumber", [f"+1 555 {self.count}"]
        return modify(name, [(REPLACE, kind, values)]), MODIFIED, self.but(name, {kind: values})

    def exchange(self):
        """A modify of two types: a description is added and the one before it goes, and there is another address."""
        name, given, mail = self.some(), self.words(), [f"m{self.count}@bench.example"]
        before = self.now[name].get("description", [])
        changes = [(ADD, "description", [given]), (REPLACE, "mail", mail)]
        changes += [(DELETE, "description", before)] if before else []
        return modify(name, changes), MODIFIED, self.but(name, {"description": [given], "mail": mail})

    def renaming(self):
        name, deletes_old = self.some(), self.chance.random() < 0.5
        kept = [] if deletes_old else self.now[name]["uid"]
        if deletes_old:
            kept = [value for value in self.now[name]["uid"] if value != name[4:].split(",")[0]]
        others = {it: entry for it, entry in self.now.items() if it != name}
        entry = {**self.now[name], "uid": [*kept, self.rdn()]}
        after = {**others, f"uid={self.rdn()},{PEOPLE}": entry}
        return rename(name, f"uid={self.rdn()}", deletes_old), RENAMED, after

    def deletion(self):
        name = self.some()
        return delete(name), DELETED, {it: entry for it, entry in self.now.items() if it != name}


def receive(connection, size):
    octets = b""
    while len(octets) < size:
        piece = connection.recv(size - len(octets))
        if not piece:
            raise ConnectionError("the connection ended")
        octets += piece
    return octets


def answered(connection, request):
    """The tag and the result code of the answer to a request."""
    connection.sendall(request)
    size = receive(connection, 2)[1]
    if size > 127:
        size = int.from_bytes(receive(connection, size & 127), "big")
    operation = receive(connection, size)[3:]
    content = operation[2 + (operation[1] & 127 if operation[1] > 127 else 0):]
    return operation[0], content[2]


class Client(threading.Thread):
    """Makes changes of its own entries, one by one, until the server is gone or so many are made."""

    def __init__(self, port, entries, most=None):
        super().__init__(daemon=True)
        self.port, self.entries, self.most = port, entries, most
        self.after = [entries.now]  # the entries after each change that was sent, behind those before the first
        self.acknowledged = 0
        self.fault = ""

    def make(self, connection):
        request, tag, after = self.entries.change()
        self.after.append(after)
        answer = answered(connection, request)
        if answer != (tag, 0):
            self.fault = f"change {len(self.after) - 1} was answered {answer[0]:#x} {answer[1]}: {request.hex()}"
            return
        self.acknowledged += 1
        self.entries.now = after

    def run(self):
        try:
            with socket.create_connection(("127.0.0.1", self.port), PATIENCE) as connection:
                if answered(connection, bind(ADMIN, "keys")) != (BOUND, 0):
                    self.fault = "the bind was refused"
                while not self.fault and (self.most is None or self.acknowledged < self.most):
                    self.make(connection)
        except TimeoutError:
            self.fault = f"no answer in {PATIENCE} seconds"
        except OSError:
            pass

    def shown(self, found):
        """How many of the changes that were sent the entries found show; None where they are no front of them."""
        for count in reversed(range(len(self.after))):
            if self.after[count] == found:
                return count
        return None

    def judge(self, found):
        """How many changes are there, and a fault in words: all that were acknowledged have to be there, and no other
        but the one that was outstanding."""
        count = self.shown(found)
        if self.fault:
            return count, f"client {self.entries.number}: {self.fault}"
        if count is None:
            return count, f"client {self.entries.number}: its entries are no front of its changes: {found}"
        if count < self.acknowledged:
            return count, f"client {self.entries.number}: {self.acknowledged} acknowledged, {count} there"
        return count, ""


def run_clients(port, everyone, most=None):
    """Starts a client for the entries of each."""
    clients = [Client(port, entries, most) for entries in everyone]
    for client in clients:
        client.start()
    return clients


def entries_in(octets):
    """The entries of a data file: each name with its values by type."""
    entries = {}
    for block in octets.decode().replace("\n ", "").split("\n\n"):
        fields = [line.split(":", 1) for line in block.split("\n") if line and not line.startswith(("#", "version"))]
        given = {}
        for kind, rest in fields:
            value = base64.b64decode(rest[1:]).decode() if rest.startswith(":") else rest.removeprefix(" ")
            given.setdefault(kind, []).append(value)
        if given:
            entries[given.pop("dn")[0]] = given
    return entries


def by_client(entries):
    """The entries of each client by its number, and those of nobody."""
    own, others = {}, {}
    for name, entry in entries.items():
        found = re.match(r"uid=c(\d+)n", name)
        (own.setdefault(int(found[1]), {}) if found else others)[name] = entry
    return own, others


def put(program, command, data, changes=None):
    """What `check` or `dump` puts of a data file, with its changes where these are given."""
    words = [*program, command, str(data), *(["--changes", str(changes)] if changes else [])]
    ran = subprocess.run(words, stdout=subprocess.PIPE, check=False)
    if ran.returncode:
        raise SystemExit(f"{' '.join(words)}: status {ran.returncode}, {ran.stdout[:200]!r}")
    return ran.stdout


def counts(program, data, changes):
    """The changes of the file that `check` counts, and the octets of its torn end."""
    found = re.search(rb"^changes (\d+) torn (\d+)$", put(program, "check", data, changes), re.M)
    if not found:
        raise SystemExit("check counts no changes")
    return int(found[1]), int(found[2])


def start(program, port, data, changes=None, environment=None):
    """Starts the program as a server of the data file at the port, which stores its changes where a file is given."""
    words = [*program, "serve", str(data), f"127.0.0.1:{port}", *(["--changes", str(changes)] if changes else [])]
    return subprocess.Popen(words, stdout=subprocess.PIPE, env=environment)


@contextlib.contextmanager
def serving(program, data, changes=None, environment=None):
    """A server that listens, as `start` starts it: the process and its port."""
    port = free_port()
    server = start(program, port, data, changes, environment)
    try:
        for line in server.stdout:
            if line.startswith(b"listening "):
                break
        else:
            raise SystemExit(f"the server ended with status {server.wait()} before it listened")
        yield server, port
    finally:
        server.kill()
        server.wait()


def write_data(path, people):
    """Writes a data file of so many people besides those of the clients."""
    pathlib.Path(path).write_text(data_file(people), encoding="ascii")
