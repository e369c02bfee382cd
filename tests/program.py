"""What a test of a whole program says: words, files, and what the program then puts and how it ends."""

import enum
import typing

from trees import TWO_ENTRIES


class Status(enum.IntEnum):
    """How a program ends."""
    DONE = 0
    USAGE = 2
    BAD_DATA = 3
    SHELF_FAULT = 4
    TURNS_SPENT = 7
    BAD_SCRIPT = 9
    NOT_PROVED = 10


USAGE = "usage: aclserver (serve|replay|check|dump|explain|sample|ask|prove|verify|rights) WORDS\n"


class Run(typing.NamedTuple):
    """A run of a program on words, or on those of a line, over the files `d` and `s`, what it puts, and what that shows."""
    line: str | list[str]
    put: str
    what: str = ""
    status: Status = Status.DONE
    data: str = TWO_ENTRIES
    script: str = ""
    program: str = "aclserver"


# The tests: each is a function without arguments that gives runs.
TESTS = []


def test(function):
    """Marks a test."""
    TESTS.append(function)
    return function


def explained(data, rows):
    """Runs over a data file, of which each row says what it shows, its line and what is put."""
    return [Run(line, put, what, data=data) for what, line, put in rows]


def replays(rows, data=TWO_ENTRIES):
    """Replays over a data file, of which each row has the script, what is put, and what that shows."""
    return [Run("replay d s", put, what, data=data, script=script) for script, put, what in rows]
