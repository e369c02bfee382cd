"""Messages that are no requests, and some that only look so (RFC 4511 4.1.1, 4.4.1 and 4.5.1.7)."""

from messages import NOTICE_LINE
from program import replays, test

# Each is sent on one connection.
HOSTILE = [
    ("open 1\nsend 1 3000\n", NOTICE_LINE, "a message of nothing"),
    ("open 1\nsend 1 3003020101\n", NOTICE_LINE, "a message of a number alone"),
    ("open 1\nsend 1 30050201004200\n", NOTICE_LINE, "the number 0"),
    ("open 1\nsend 1 3006020200014200\n", NOTICE_LINE, "a number that is written too long"),
    ("open 1\nsend 1 30050201014280\n", NOTICE_LINE, "an unbind of indefinite length"),
    ("open 1\nsend 1 300702010142020000\n", NOTICE_LINE, "an unbind with octets in it"),
    ("open 1\nsend 1 30070201017f020000\n", NOTICE_LINE, "an operation that there is not"),
    ("open 1\nsend 1 300c020101600702010004008000\n", NOTICE_LINE, "a bind of version 0"),
    (
        "open 1\nsend 1 300c020101600702010204008000\n",
        "1 300c02010161070a010204000400\n",
        "a bind of version 2",
    ),
    ("open 1\nsend 1 3006020101500101\n", "1 -\n", "an abandon of nothing that goes on"),
    (
        "open 1\n"
        "send 1 3081b00201016381aa040764633d6e6f6e650a01000a0100020100020100010100a2818da2818aa28187a28184a28181a27fa27da27ba279a277a275a273a271a26fa26da26ba269a267a265a263a261a25fa25da25ba259a257a255a253a251a24fa24da24ba249a247a245a243a241a23fa23da23ba239a237a235a233a231a22fa22da22ba229a227a225a223a221a21fa21da21ba219a217a215a213a211a20fa20d870b6f626a656374436c6173733000\n",
        "1 300c02010165070a012004000400\n",
        "a filter of 63 negations of an item",
    ),
    (
        "open 1\n"
        "send 1 3081b30201016381ad040764633d6e6f6e650a01000a0100020100020100010100a28190a2818da2818aa28187a28184a28181a27fa27da27ba279a277a275a273a271a26fa26da26ba269a267a265a263a261a25fa25da25ba259a257a255a253a251a24fa24da24ba249a247a245a243a241a23fa23da23ba239a237a235a233a231a22fa22da22ba229a227a225a223a221a21fa21da21ba219a217a215a213a211a20fa20d870b6f626a656374436c6173733000\n",
        NOTICE_LINE,
        "a filter of 64 negations of an item",
    ),
]


@test
def what_is_no_request_gets_the_notice():
    return replays(HOSTILE)
