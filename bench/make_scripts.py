#!/usr/bin/env python3
"""Makes the scripts of the benchmark, each with the answer that it must get."""

import argparse
import json
from pathlib import Path
from typing import NamedTuple

PIECE = 65_536
MOST_CONTENT = 1_048_576
MOST_SCRIPT = 67_108_864
BINDS = 100_000
CONNECTIONS = 256
ROUNDS = 400
SESSIONS = 80_000
CUT = 7


class Case(NamedTuple):
    """A script, how much it sends, and how the program must end and answer."""

    name: str
    script: bytes
    messages: int
    octets: int
    status: int
    answer: bytes


def length_octets(length):
    """The definite length of an element (X.690 8.1.3), as short as it can be."""
    if length < 128:
        return bytes([length])
    digits = length.to_bytes((length.bit_length() + 7) // 8, "big")
    return bytes([0x80 | len(digits)]) + digits


def element(tag, content):
    """An element of one tag octet."""
    return bytes([tag]) + length_octets(len(content)) + content


def integer(value):
    """An INTEGER that is not negative."""
    return element(0x02, value.to_bytes(value.bit_length() // 8 + 1, "big"))


def bind(message_id, name=b""):
    """A bind of version 3 with an empty simple password (RFC 4511 4.2)."""
    request = integer(3) + element(0x04, name) + element(0x80, b"")
    return element(0x30, integer(message_id) + element(0x60, request))


def bind_reply(message_id, code=0):
    """The response to a bind, without names and texts (RFC 4511 4.2.2)."""
    result = element(0x0A, bytes([code])) + element(0x04, b"") + element(0x04, b"")
    return element(0x30, integer(message_id) + element(0x61, result))


def binds(count):
    """Anonymous binds with the message ids from 1 on."""
    return b"".join(bind(message_id) for message_id in range(1, count + 1))


def replies(count):
    """The successes that answer so many anonymous binds."""
    return b"".join(bind_reply(message_id) for message_id in range(1, count + 1))


def send_line(connection, octets):
    """The line that sends the octets."""
    return b"send %d %s\n" % (connection, octets.hex().encode())


def sends(stream, size):
    """The lines that send the stream on connection 1 in pieces of a size."""
    return b"".join(
        send_line(1, stream[start : start + size]) for start in range(0, len(stream), size)
    )


def octet_sends(stream):
    """The lines that send the stream on connection 1 octet by octet."""
    lines = [send_line(1, bytes([octet])) for octet in range(256)]
    return b"".join([lines[octet] for octet in stream])


def session(lines):
    """The script of one connection that is opened, sends and is ended."""
    return b"open 1\n" + lines + b"end 1\n"


def answer_line(connection, octets):
    """The line printed for a connection that was ended."""
    return b"%d %s closed\n" % (connection, octets.hex().encode())


def pipelined(name, count):
    """Anonymous binds on one connection in sends of 65,536 octets."""
    stream = binds(count)
    script = session(sends(stream, PIECE))
    return Case(name, script, count, len(stream), 0, answer_line(1, replies(count)))


def by_octets(name, count):
    """Anonymous binds on one connection octet by octet."""
    stream = binds(count)
    script = session(octet_sends(stream))
    return Case(name, script, count, len(stream), 0, answer_line(1, replies(count)))


def halves(message_id, rounds):
    """The end of the message before and the beginning of this one."""
    before = bind(message_id - 1)[CUT:] if message_id > 1 else b""
    after = bind(message_id)[:CUT] if message_id <= rounds else b""
    return before + after


def round_lines(numbers, octets):
    """The lines by which each connection sends the same octets."""
    return b"".join(send_line(number, octets) for number in numbers)


def in_halves(name, connections, rounds):
    """Binds of connections in turn, each message cut in two across the rounds."""
    numbers = range(1, connections + 1)
    opened = b"".join(b"open %d\n" % number for number in numbers)
    ended = b"".join(b"end %d\n" % number for number in numbers)
    ids = range(1, rounds + 2)
    sent = b"".join(round_lines(numbers, halves(message_id, rounds)) for message_id in ids)
    answered = replies(rounds)
    answer = b"".join(answer_line(number, answered) for number in numbers)
    octets = connections * len(binds(rounds))
    return Case(name, opened + sent + ended, connections * rounds, octets, 0, answer)


def short_session(number):
    """The lines of a connection that binds once."""
    return b"open %d\n%send %d\n" % (number, send_line(number, bind(1)), number)


def sessions(name, numbers):
    """Connections one after another, opened in the order of the numbers."""
    script = b"".join(short_session(number) for number in numbers)
    reply = bind_reply(1)
    answer = b"".join(answer_line(number, reply) for number in sorted(numbers))
    return Case(name, script, len(numbers), len(numbers) * len(bind(1)), 0, answer)


def long_message(name, content):
    """One bind with so many octets of content, octet by octet, with a name but no password."""
    around = 18
    message = bind(1, b"cn=" + b"a" * (content - around - 3))
    assert len(message) == content + 5, "the lengths have three octets each"
    script = session(octet_sends(message))
    return Case(name, script, 1, len(message), 0, answer_line(1, bind_reply(1, 34)))


def filled(script):
    """The script with one more line that says nothing, as long as the limit allows."""
    room = MOST_SCRIPT - len(script)
    return script + b"#" * (room - 1) + b"\n" * min(room, 1)


def binds_within(octets):
    """How many binds have at most so many octets in all."""
    count = 0
    left = octets - len(bind(1))
    while left >= 0:
        count += 1
        left -= len(bind(count + 1))
    return count


def limit_octets(name):
    """A script of the most octets: as many binds octet by octet as there is room for."""
    room = MOST_SCRIPT - len(session(b""))
    case = by_octets(name, binds_within(room // len(send_line(1, b"0"))))
    return case._replace(script=filled(case.script))


def limit_line(name):
    """A script of the most octets: as many binds in one line as there is room for."""
    room = MOST_SCRIPT - len(session(send_line(1, b"")))
    count = binds_within(room // 2)
    stream = binds(count)
    script = filled(session(send_line(1, stream)))
    return Case(name, script, count, len(stream), 0, answer_line(1, replies(count)))


def limit_comments(name):
    """A script of the most octets that has comments alone."""
    line = b"#" * 63 + b"\n"
    return Case(name, line * (MOST_SCRIPT // len(line)), 0, 0, 0, b"")


def over_limit(name):
    """A script of one octet more, which is refused with the number of that octet's line."""
    script = limit_comments(name).script
    answer = b"bad script line %d\n" % (script.count(b"\n") + 1)
    return Case(name, script + b"#", 0, 0, 9, answer)


ONE_ENTRY = b"version: 1\n\ndn: dc=bench\nobjectClass: domain\ndc: bench\n"

MAKERS = {
    "empty": lambda name: Case(name, b"", 0, 0, 0, b""),
    "pipelined_half": lambda name: pipelined(name, BINDS // 2),
    "pipelined": lambda name: pipelined(name, BINDS),
    "octets_half": lambda name: by_octets(name, BINDS // 2),
    "octets": lambda name: by_octets(name, BINDS),
    "interleaved_half": lambda name: in_halves(name, CONNECTIONS, ROUNDS // 2),
    "interleaved": lambda name: in_halves(name, CONNECTIONS, ROUNDS),
    "alone_half": lambda name: in_halves(name, 1, CONNECTIONS * ROUNDS // 2),
    "alone": lambda name: in_halves(name, 1, CONNECTIONS * ROUNDS),
    "rising_half": lambda name: sessions(name, range(1, SESSIONS // 2 + 1)),
    "rising": lambda name: sessions(name, range(1, SESSIONS + 1)),
    "falling_half": lambda name: sessions(name, range(SESSIONS // 2, 0, -1)),
    "falling": lambda name: sessions(name, range(SESSIONS, 0, -1)),
    "long_message_half": lambda name: long_message(name, MOST_CONTENT // 2),
    "long_message": lambda name: long_message(name, MOST_CONTENT),
    "limit_octets": limit_octets,
    "limit_line": limit_line,
    "limit_comments": limit_comments,
    "over_limit": over_limit,
}


def write_case(folder, case):
    """Writes the script and its answer, and gives the row of the list of cases."""
    (folder / f"{case.name}.script").write_bytes(case.script)
    (folder / f"{case.name}.answer").write_bytes(case.answer)
    return {
        "name": case.name,
        "script_octets": len(case.script),
        "messages": case.messages,
        "octets": case.octets,
        "status": case.status,
    }


def main():
    """Writes all scripts, a data file of one entry and the list of cases into a folder."""
    parser = argparse.ArgumentParser(description=__doc__)
    parser.add_argument("folder", type=Path, help="where the scripts are put")
    folder = parser.parse_args().folder
    folder.mkdir(parents=True, exist_ok=True)
    (folder / "one.ldif").write_bytes(ONE_ENTRY)
    rows = [write_case(folder, maker(name)) for name, maker in MAKERS.items()]
    (folder / "cases.json").write_text(json.dumps(rows, indent=1) + "\n")
    for row in rows:
        print("{name:18} {script_octets:>11,} octets {messages:>10,} messages".format(**row))


if __name__ == "__main__":
    main()
