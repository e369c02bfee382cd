#!/usr/bin/env python3
"""Tries whether one peer takes the machine: serves many people, and troubles the server with peers of many kinds.

    bench/hostile.py --program PROGRAM [TRY..] [--people N] [--seconds N] [--patience N] [--most-memory MIB]
                     [--changes N] [--serve-words WORDS] [--alone]

Each try starts servers of its own on loopback over N people, one in 50 of whom is hidden, stops them, and prints a
line for each; without names all that TRIES and LOADS list are made. Beside a load an honest client (hostile.c, which
`cc` makes) sends a bind and a search of one entry every 10 ms for `--seconds`. An answer is waited for at most
`--patience` seconds; a wait that had no answer by then stands with `>`. A load is stopped where the server takes more
memory than `--most-memory`. `--serve-words` are further words for `serve`. The loads are tried on OpenLDAP's slapd too
where it is installed, but not with `--alone`. Times are only printed; nothing fails because it is slow.
"""

import argparse
import contextlib
import os
import pathlib
import random
import shlex
import shutil
import signal
import socket
import statistics
import subprocess
import sys
import tempfile
import time
from typing import NamedTuple

from serve_operations import BASE, DONE, PEOPLE, SUBTREE, peer, person_name
from served import ADMIN, FIRST, HEAD, OWN, SUFFIX, bind, element, free_port, message, people_records, text

HIDDEN_ONE_IN = 50
OCTETS = 44100
MOST_CONNECTIONS, MOST_PAIRS, MOST_OUTSTANDING = 256, 200, 1 << 30
# Of an entry, of a value, and how many such values a message has room for.
MOST_OCTETS, MOST_VALUE, VALUES = 1 << 26, 1 << 16, 15
CODES = {0: "success", 3: "time limit", 4: "size limit", 11: "admin limit", 32: "no such object", 51: "busy",
         53: "unwilling"}
HIDDEN_UNIT, ABSENT_UNIT = "ou=closed," + SUFFIX, "ou=closex," + SUFFIX
LARGE = person_name(0)
BOUND, MODIFIED, ADD, DELETE = 0x61, 0x67, 0, 1
PRESENT = element(0x87, b"objectClass")


# --- the data, and the messages ---

def hidden_record(number):
    return f"dn: uid=h{FIRST + number},{HIDDEN_UNIT}\nobjectClass: inetOrgPerson\ncn: Hidden {number}\nsn: Hidden\n"


def open_people(people):
    return people - people // HIDDEN_ONE_IN


def records(people):
    """The data file of so many people, one in 50 of them hidden."""
    hidden = map(hidden_record, range(people // HIDDEN_ONE_IN))
    return "\n".join([HEAD, *hidden, *people_records(open_people(people))])


def search(base, scope, condition=PRESENT, selection=b"", number=0x01000000):
    """A search with a message id of four octets, of all user attributes where no selection is given."""
    head = text(base) + bytes([10, 1, scope, 10, 1, 0, 2, 1, 0, 2, 1, 0, 1, 1, 0])
    operation = element(0x63, head + condition + element(0x30, selection))
    return element(0x30, element(2, number.to_bytes(4, "big")) + operation)


def substring(part):
    """The filter cn=*part*."""
    return element(0xA4, text("cn") + element(0x30, element(0x81, part)))


def full(condition=PRESENT):
    """As many searches of the whole tree as fit in 44,100 octets, and how many these are: 900 of 49 octets."""
    count = OCTETS // len(search(SUFFIX, SUBTREE, condition))
    return b"".join(search(SUFFIX, SUBTREE, condition, number=0x01000000 + it) for it in range(count)), count


def modify(name, kind, attribute, values):
    """A modify with a change for each value."""
    changes = b"".join(
        element(0x30, element(0x0A, bytes([kind])) + element(0x30, text(attribute) + element(0x31, text(value))))
        for value in values)
    return message(element(0x66, text(name) + element(0x30, changes)))


# --- the servers ---

class Server(NamedTuple):
    """A server, and how many rounds of the honest client it may have outstanding."""

    pid: int
    port: int
    outstanding: int


def first_to_go(server):
    """The server, which the system ends first where memory is short."""
    pathlib.Path(f"/proc/{server.pid}/oom_score_adj").write_text("1000", encoding="ascii")
    return server


@contextlib.contextmanager
def ours(asked):
    port = free_port()
    words = [*asked.program, "serve", asked.data, f"127.0.0.1:{port}", *asked.serve_words]
    with subprocess.Popen(words, stdout=subprocess.PIPE) as server:
        try:
            if not server.stdout.readline().startswith(b"listening"):
                raise SystemExit("the server does not listen")
            yield first_to_go(Server(server.pid, port, MOST_OUTSTANDING))
        finally:
            server.kill()


@contextlib.contextmanager
def slapd(asked):
    """OpenLDAP's server, in which a bind ends what is outstanding on its connection."""
    wanted = argparse.Namespace(people=open_people(asked.people), members=0, threads=0, pinned=False)
    with peer(wanted) as (pid, port):
        yield first_to_go(Server(pid, port, 1))


def memory(server, field):
    """A field of the server's status in MiB; 0 where it has gone."""
    try:
        status = pathlib.Path(f"/proc/{server.pid}/status").read_text(encoding="ascii")
    except OSError:
        return 0
    return next((int(line.split()[1]) / 1024 for line in status.splitlines() if line.startswith(field + ":")), 0)


def forget_peak(server):
    """Lets VmHWM begin anew."""
    pathlib.Path(f"/proc/{server.pid}/clear_refs").write_text("5", encoding="ascii")


# --- one request and its answer ---

def sizes(octets):
    """The length of the header and of the element at the front; None where the header isn't whole."""
    if len(octets) < 6:
        return None
    count = octets[1] - 128 if octets[1] > 127 else 0
    return 2 + count, 2 + count + (int.from_bytes(octets[2:2 + count], "big") if count else octets[1])


def last_message(octets, tag):
    """The operation with the tag, where its message is whole."""
    while (found := sizes(octets)) and found[1] <= len(octets):
        content = octets[found[0]:found[1]]
        operation = content[2 + content[1]:]
        if operation[0] == tag:
            return operation
        octets = octets[found[1]:]
    return None


class Answer(NamedTuple):
    """Seconds until an answer; its operation, or what came instead."""

    seconds: float
    operation: bytes
    instead: str = ""

    def code(self):
        return self.operation[sizes(self.operation)[0] + 2]

    def is_success(self):
        return not self.instead and self.code() == 0

    def __str__(self):
        if self.instead:
            return f"{self.instead} {self.seconds:.3g} s"
        return f"{self.seconds:.3g} s ({CODES.get(self.code(), self.code())})"


def asked_of(connection, request, tag, patience):
    """Sends a request and waits for the operation with the tag."""
    start, octets = time.perf_counter(), b""
    try:
        connection.settimeout(patience)
        connection.sendall(request)
        while (operation := last_message(octets, tag)) is None:
            connection.settimeout(max(0.001, start + patience - time.perf_counter()))
            piece = connection.recv(1 << 16)
            if not piece:
                return Answer(time.perf_counter() - start, b"", "closed after")
            octets += piece
    except socket.timeout:
        return Answer(time.perf_counter() - start, b"", "no answer in")
    except OSError:
        return Answer(time.perf_counter() - start, b"", "closed after")
    return Answer(time.perf_counter() - start, operation)


def connected(server, patience):
    return socket.create_connection(("127.0.0.1", server.port), patience)


@contextlib.contextmanager
def bound(server, name, patience):
    """A connection that is bound by the password `keys`."""
    with connected(server, patience) as connection:
        answer = asked_of(connection, bind(name, "keys"), BOUND, patience)
        if not answer.is_success():
            raise SystemExit(f"the bind of {name}: {answer}")
        yield connection


def alone(asked, request, name="", tag=DONE):
    """The answer to one request, by a server that nothing else troubles."""
    with ours(asked) as server, contextlib.ExitStack() as stack:
        connection = stack.enter_context(
            bound(server, name, asked.patience) if name else connected(server, asked.patience))
        return asked_of(connection, request, tag, asked.patience)


# --- peers, and an honest client beside them ---

class Load(NamedTuple):
    """So many connections, what they read, the octets that each sends, and how many answers each waits for."""

    connections: int
    reads: str
    octets: bytes
    answers: int = 0


class Beside(NamedTuple):
    """How the honest client fared."""

    due: int
    answered: int
    otherwise: int
    most_of_100: float
    is_most_of_100_lost: int
    most: float
    is_most_lost: int
    again: int

    def waits(self):
        """The wait of the 99th of 100 and the longest, in milliseconds."""
        return tuple(f"{'>' if is_lost else ''}{microseconds / 1000:,.1f}" for microseconds, is_lost in (
            (self.most_of_100, self.is_most_of_100_lost), (self.most, self.is_most_lost)))

    def answers(self):
        more = "".join(f", {count:,} {what}" for count, what in (
            (self.otherwise, "otherwise"), (self.again, "connected anew")) if count)
        return f"{self.answered:,} of {self.due:,}{more}"


def started(asked, what, *words, octets=b""):
    """One of the two programs of hostile.c, which has been given the octets."""
    words = [asked.clients, what, *(str(word) for word in words)]
    process = subprocess.Popen(words, stdin=subprocess.PIPE, stdout=subprocess.PIPE)
    process.stdin.write(octets)
    process.stdin.close()
    return process


def ended(process):
    """The numbers that the program prints at its end, which may be now."""
    process.terminate()
    with process:
        return [int(number) for number in process.stdout.read().split()]


class Taken(NamedTuple):
    """What peers got: microseconds until the end, octets read, searches answered, connections ended, the last code."""

    microseconds: int
    octets: int
    answers: int
    ended: int
    code: int


def peers(asked, server, load):
    longest = asked.seconds + asked.patience + 5
    return started(asked, "peers", server.port, load.connections, load.reads, load.answers, longest, octets=load.octets)


def beside(asked, server, load):
    """How the honest client fares, and what the peers got; the server's most MiB, and whether these are too many."""
    request = bind(OWN, "keys") + search(person_name(open_people(asked.people) // 2), BASE)
    forget_peak(server)
    words = server.port, asked.seconds, asked.patience, server.outstanding
    honest = started(asked, "honest", *words, octets=request)
    time.sleep(0.1)
    load_process, is_too_much = peers(asked, server, load), False
    while honest.poll() is None and not is_too_much:
        time.sleep(0.05)
        is_too_much = memory(server, "VmRSS") > asked.most_memory
    fared = Beside(*ended(honest))
    most = memory(server, "VmHWM")
    return fared, Taken(*ended(load_process)), most, is_too_much


# --- the tries ---

def one_message(asked):
    """Nine hundred searches of the whole tree in one send, beside the longest of twenty that come alone."""
    octets, count = full()
    with ours(asked) as server:
        single = Load(1, "all", search(SUFFIX, SUBTREE), 1)
        alone_times = []
        for _ in range(20):
            process = peers(asked, server, single)
            process.wait()
            taken = Taken(*ended(process))
            if taken.answers == 1:
                alone_times.append(taken.microseconds / 1000)
        fared, taken, most, _ = beside(asked, server, Load(1, "all", octets, count))
    most_of_100, longest = fared.waits()
    single = f"{max(alone_times):,.1f} ms at most" if alone_times else "no answer"
    yield (f"{count} searches in {len(octets):,} octets, {taken.answers} answered in {taken.microseconds / 1e6:.3g} s: "
           f"another waits {longest} ms at most and {most_of_100} ms in 99 of 100, {fared.answers()} answered, "
           f"{most:,.0f} MiB; one search alone: {single}")


def long_substring(asked):
    """A substring of 900 kB, which each entry's cn is compared with."""
    for what, part in (("a, space", b"a " * 450000), ("U+FDFA", "\ufdfa".encode() * 300000)):
        yield f"{what}, {len(part):,} octets: {alone(asked, search(SUFFIX, SUBTREE, substring(part), text('1.1')))}"


def pairs(asked, connection, requests):
    """The answers to two requests, which are sent in turn until one has none, or for so long."""
    answers, until = [], time.perf_counter() + asked.patience
    while len(answers) < MOST_PAIRS and time.perf_counter() < until:
        order = (0, 1) if len(answers) % 2 else (1, 0)
        both = {which: asked_of(connection, requests[which], DONE, asked.patience) for which in order}
        answers.append((both[0], both[1]))
        if both[0].instead or both[1].instead:
            break
    return answers


def compared(answers):
    """The middle times of the two, their ratio, and whether the answers were the same."""
    hidden, absent = (statistics.median(pair[which].seconds for pair in answers) for which in (0, 1))
    missing = [f", {what} {it}" for what, it in zip(("hidden", "absent"), answers[-1]) if it.instead]
    is_same = all(one.operation == other.operation for one, other in answers)
    return (f"hidden {hidden * 1000:.3g} ms, absent {absent * 1000:.3g} ms, {hidden / absent:.3g} times, the middle of "
            f"{len(answers)}, the answers {'the same' if is_same else 'NOT THE SAME'}{''.join(missing)}")


def hidden_name(asked):
    """A search of what is hidden beside one of what is not there, by the heavy filter and by a light one."""
    heavy = substring("\ufdfa".encode() * 20000)
    there, absent = f"uid=h{FIRST + 5},{HIDDEN_UNIT}", f"uid=x{FIRST + 5},{HIDDEN_UNIT}"
    units, below = (HIDDEN_UNIT, ABSENT_UNIT), asked.people // HIDDEN_ONE_IN
    for what, names, scope, condition in (
            ("one entry, a substring of 60,000 octets", (there, absent), BASE, heavy),
            ("one entry, presence", (there, absent), BASE, PRESENT),
            (f"{below} below, a substring of 60,000 octets", units, SUBTREE, heavy)):
        with ours(asked) as server, connected(server, asked.patience) as connection:
            requests = [search(name, scope, condition) for name in names]
            yield f"{what}: {compared(pairs(asked, connection, requests))}"


def changes(asked):
    """A modify of many changes of one value each: adds, and then deletes."""
    for count in (asked.changes // 2, asked.changes):
        values = [f"+1 555 {FIRST + number}" for number in range(count)]
        with ours(asked) as server, bound(server, OWN, asked.patience) as connection:
            for what, kind in (("adds", ADD), ("deletes", DELETE)):
                answer = asked_of(connection, modify(OWN, kind, "telephoneNumber", values), MODIFIED, asked.patience)
                yield f"{count:,} {what} of one value each: {answer}"
                if answer.instead:
                    break


def is_ended(connection):
    connection.setblocking(False)
    try:
        return not connection.recv(1 << 12)
    except BlockingIOError:
        return False
    except OSError:
        return True


def silent(asked):
    """A client more than there is room for, beside others that say nothing, or have bound and say nothing more."""
    for what, first in (("silent from the start", b""), ("bound, and silent since", bind(OWN, "keys"))):
        with ours(asked) as server, contextlib.ExitStack() as stack:
            held = [stack.enter_context(connected(server, asked.patience)) for _ in range(MOST_CONNECTIONS)]
            for connection in held if first else ():
                asked_of(connection, first, BOUND, asked.patience)
            time.sleep(0.5)
            answers = []
            for _ in range(MOST_CONNECTIONS // 8):
                connection = stack.enter_context(connected(server, asked.patience))
                answers.append(asked_of(connection, bind("", "") + search(person_name(1), BASE), DONE, asked.patience))
            gone = sum(map(is_ended, held))
        good = sum(1 for it in answers if not it.instead)
        yield (f"{MOST_CONNECTIONS} connections {what}: the next client {answers[0]}, {good} of the next "
               f"{len(answers)} answered, {gone} of the silent ones ended")


TRIES = {"one-message": one_message, "long-substring": long_substring, "hidden-name": hidden_name, "changes": changes,
         "silent": silent}


# --- the loads ---

def grown(asked, server):
    """Lets an administrator give one person 1,020 values of the greatest length, of 64 MiB together."""
    with bound(server, ADMIN, asked.patience) as connection:
        for first in range(0, MOST_OCTETS // MOST_VALUE - VALUES, VALUES):
            values = [f"{number:04}".ljust(MOST_VALUE, "x") for number in range(first, first + VALUES)]
            answer = asked_of(connection, modify(LARGE, ADD, "description", values), MODIFIED, asked.patience)
            if not answer.is_success():
                print(f"the entry did not grow to the end: {first} values, then {answer}", flush=True)
                return


def noise():
    """Blocks of 4,096 octets at random, every other one with the header of a message at its front."""
    source = random.Random(7)
    return b"".join(element(0x30, source.randbytes(4092)) + source.randbytes(4096) for _ in range(480))


LOADS = {
    "never-read": lambda: Load(32, "never", full()[0]),
    "read-slowly": lambda: Load(32, "slowly", full()[0]),
    "read-all": lambda: Load(32, "all", *full()),
    "match-nothing": lambda: Load(32, "all", *full(substring(b"nobody has it"))),
    "say-nothing": lambda: Load(250, "never", b""),
    "random": lambda: Load(32, "again", noise()),
    "large-entry": lambda: Load(12, "never", search(LARGE, BASE)),
}


def load_line(asked, name, what, serving):
    with serving(asked) as server:
        if name == "large-entry":
            grown(asked, server)
        before = memory(server, "VmRSS")
        fared, taken, most, is_too_much = beside(asked, server, LOADS[name]())
        time.sleep(1)
        after = memory(server, "VmRSS")
    more = f", stopped at {asked.most_memory:,}" if is_too_much else ""
    cells = [name, what, *fared.waits(), fared.answers(), f"{before:,.0f}", f"{most:,.0f}{more}", f"{after:,.0f}",
             f"{taken.answers:,}", f"{taken.ended:,}"]
    print("| " + " | ".join(cells) + " |", flush=True)


def told(asked, names):
    """Makes the tries and the loads of these names."""
    for name in (it for it in TRIES if it in names):
        for line in TRIES[name](asked):
            print(f"{name}: {line}", flush=True)
    loads = [it for it in LOADS if it in names]
    if loads:
        print("| load | server | 99 of 100, ms | longest, ms | answered | MiB before | MiB at most | MiB afterwards | "
              "searches answered to the peers | peers ended |")
        print("|---|---|---:|---:|---:|---:|---:|---:|---:|---:|", flush=True)
    for name in loads:
        load_line(asked, name, "ours", ours)
        if shutil.which("slapd") and not asked.alone:
            load_line(asked, name, "slapd", slapd)


def main():
    words = argparse.ArgumentParser(description=__doc__, formatter_class=argparse.RawDescriptionHelpFormatter)
    words.add_argument("--program", type=shlex.split, required=True)
    words.add_argument("names", nargs="*", metavar="TRY", choices=[[], *TRIES, *LOADS])
    words.add_argument("--people", type=int, default=10000)
    words.add_argument("--seconds", type=int, default=10)
    words.add_argument("--patience", type=int, default=30)
    words.add_argument("--most-memory", type=int, default=4096)
    words.add_argument("--changes", type=int, default=8000)
    words.add_argument("--serve-words", type=shlex.split, default=[])
    words.add_argument("--alone", action="store_true")
    asked = words.parse_args()
    # So that the servers are stopped and the files go.
    signal.signal(signal.SIGTERM, lambda number, _: sys.exit(128 + number))
    with tempfile.TemporaryDirectory() as folder:
        asked.data, asked.clients = os.path.join(folder, "people.ldif"), os.path.join(folder, "hostile")
        pathlib.Path(asked.data).write_text(records(asked.people), encoding="ascii")
        source = pathlib.Path(__file__).resolve().parent / "hostile.c"
        subprocess.run(["cc", "-O2", "-o", asked.clients, str(source)], check=True)
        told(asked, asked.names or [*TRIES, *LOADS])
    return 0


if __name__ == "__main__":
    sys.exit(main())
