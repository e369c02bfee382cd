"""Scripts and the lines that they give."""

from messages import BIND_SCRIPT, BOUND_LINE, NOTICE_LINE
from program import Run, Status, replays, test

# Scripts of at most one connection.
REPLAYS = [
    (BIND_SCRIPT, BOUND_LINE, "an anonymous bind"),
    (
        "open 1\n"
        "send 1 30\n"
        "send 1 0c\n"
        "send 1 02\n"
        "send 1 01\n"
        "send 1 01\n"
        "send 1 60\n"
        "send 1 07\n"
        "send 1 02\n"
        "send 1 01\n"
        "send 1 03\n"
        "send 1 04\n"
        "send 1 00\n"
        "send 1 80\n"
        "send 1 00\n",
        BOUND_LINE,
        "a bind octet by octet",
    ),
    (
        "open 1\n"
        "send 1 300c020101600702010304008000300c020101600702010304008000",
        "1 300c02010161070a010004000400300c02010161070a010004000400\n",
        "two binds in one piece",
    ),
    ("open 1\nsend 1 30840000000c020101600702010304008000", BOUND_LINE, "a long form of the length"),
    ("open 1\nsend 1 3080", NOTICE_LINE, "the indefinite length"),
    ("open 1\nsend 1 31", NOTICE_LINE, "another tag"),
    ("open 1\nsend 1 3083100000", "1 -\n", "the header of the largest message"),
    ("open 1\nsend 1 3083100001", NOTICE_LINE, "the header of a message that is too large"),
    ("open 1\nsend 1 308311", "1 -\n", "a length that isn't all there"),
    ("open 1\nsend 1 300c020101", "1 -\n", "a message that isn't all there"),
    (
        "open 1\nsend 1 301602010160110201030400a30a040845585445524e414c",
        "1 300c02010161070a010704000400\n",
        "a bind by SASL",
    ),
    (
        "open 1\nsend 1 300c020101600702010304008000\nsend 1 30050201024200\n",
        "1 300c02010161070a010004000400 closed\n",
        "a bind and an unbind",
    ),
    (
        "open 1\n"
        "send 1 3033020102632e040a64633d6578616d706c650a01000a0100020100020100010100870b6f626a656374436c617373300404026463",
        "1 300c02010265070a012004000400\n",
        "a search of a name that no entry has",
    ),
    (
        "open 1\nsend 1 300c020101600702010204008000",
        "1 300c02010161070a010204000400\n",
        "a bind of version 2",
    ),
    (
        "open 1\nsend 1 300d02010160080201030401618000",
        "1 300c02010161070a012204000400\n",
        "a bind with a name that is none",
    ),
    ("open 1\nsend 1 3006020102500101", "1 -\n", "an abandon"),
    ("open 1\nsend 1 30050201024200300c020101600702010304008000", "1 - closed\n", "octets behind an unbind"),
    ("open 1\nend 1", "1 - closed\n", "an end"),
    ("# nothing\n\n", "", "no connection"),
]

# Scripts of one request each.
REQUESTS = [
    ("open 1\nsend 1 300a02010177058003312e32", "1 300c02010178070a010204000400\n", "an extended request"),
    (
        "open 1\nsend 1 300e020101600702010304008000a000",
        "1 300c02010161070a010004000400\n",
        "a bind with an empty list of controls",
    ),
    (
        "open 1\nsend 1 3016020101600702010304008000a00830060401610101ff",
        "1 300c02010161070a010c04000400\n",
        "a bind with a critical control",
    ),
    (
        "open 1\nsend 1 3013020101600702010304008000a0053003040161",
        "1 300c02010161070a010004000400\n",
        "a bind with a control that isn't critical",
    ),
    (
        "open 1\nsend 1 30110201054a026161a00830060401610101ff",
        "1 300c0201056b070a010c04000400\n",
        "a delete with a critical control",
    ),
    (
        "open 1\nsend 1 30070201054a026161",
        "1 300c0201056b070a012204000400\n",
        "a delete of a name that is none",
    ),
    (
        "open 1\nsend 1 300b0201026606040261613000",
        "1 300c02010267070a012204000400\n",
        "a modify of a name that is none",
    ),
    (
        "open 1\nsend 1 300b0201036806040261613000",
        "1 300c02010369070a012204000400\n",
        "an add of a name that is none",
    ),
    (
        "open 1\nsend 1 30100201046c0b04026161040262620101ff",
        "1 300c0201046d070a012204000400\n",
        "a rename of a name that is none",
    ),
    (
        "open 1\nsend 1 30120201056e0d0402616130070402636e040178",
        "1 300c0201056f070a012204000400\n",
        "a compare of a name that is none",
    ),
]

FOUR_EVENTS = """\
open 1
send 1 300c020101600702010304008000
send 1 300c020102600702010304008000
send 1 300c020103600702010304008000
"""

THREE_BOUND = "1 300c02010161070a010004000400300c02010261070a010004000400300c02010361070a010004000400\n"

# A line with a number of turns, what it prints of four events, and how it ends.
TURNS = [
    ("replay d s --turns 0", "", Status.TURNS_SPENT),
    ("replay d s --turns 1", "1 -\n", Status.TURNS_SPENT),
    ("replay d s --turns=3", "1 300c02010161070a010004000400300c02010261070a010004000400\n", Status.TURNS_SPENT),
    ("replay d s --turns 4", THREE_BOUND, Status.TURNS_SPENT),
    ("replay d s --turns 5", THREE_BOUND, Status.DONE),
    ("replay --turns 007 d s", THREE_BOUND, Status.DONE),
]


@test
def each_script_gives_its_lines():
    return replays(REPLAYS)


@test
def each_request_is_answered_in_the_response_of_its_kind():
    return replays(REQUESTS)


@test
def a_connection_past_the_most_is_turned_away_until_another_ends():
    script = "".join(f"open {number}\n" for number in range(1, 258))
    script += "end 1\nopen 258\nsend 258 300c020101600702010304008000\n"
    put = "1 - closed\n" + "".join(f"{number} -\n" for number in range(2, 257))
    put += "257 - closed\n258 300c02010161070a010004000400\n"
    return replays([(script, put, "258 connections")])


@test
def as_many_events_are_heard_as_there_are_turns():
    return [Run(line, put, status=status, script=FOUR_EVENTS) for line, put, status in TURNS]
