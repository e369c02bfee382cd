"""One stream of octets, cut in every way."""

from messages import NOTICE_LINE
from program import replays, test

# An anonymous bind and then an unbind, in hexadecimal.
STREAM = "300c02010160070201030400800030050201024200"

ANSWER = "1 300c02010161070a010004000400 closed\n"

THREE_ANSWERS = """\
1 300c02010161070a010004000400 closed
2 300c02010161070a010004000400 closed
3 300c02010161070a010004000400 closed
"""


def piece(connection, first, last):
    """The line that sends the octets between two places of the stream, if there are any."""
    return f"send {connection} {STREAM[2 * first:2 * last]}\n" if first < last else ""


@test
def a_stream_cut_at_any_two_places_is_answered_the_same():
    cuts = [(first, second) for first in range(22) for second in range(first, 22)]
    scripts = ["open 1\n" + piece(1, 0, first) + piece(1, first, second) + piece(1, second, 21) for first, second in cuts]
    return replays([(script, ANSWER, f"cut at {cut}") for script, cut in zip(scripts, cuts)])


@test
def a_stream_of_single_octets_is_answered_the_same():
    script = "open 1\n" + "".join(piece(1, place, place + 1) for place in range(21))
    return replays([(script, ANSWER, "single octets")])


@test
def three_streams_that_come_octet_by_octet_are_answered_alone():
    places = [(place, connection) for place in range(21) for connection in (1, 2, 3)]
    script = "open 3\nopen 1\nopen 2\n" + "".join(piece(connection, place, place + 1) for place, connection in places)
    return replays([(script, THREE_ANSWERS, "three streams")])


@test
def the_largest_message_is_answered_and_one_octet_more_is_not():
    # 5 octets of header, then 02 01 01, then the 5 octets before the content of an extended request, and the 5 before
    # its name
    largest = "3083100000" + "02010177830ffff880830ffff3" + "00" * 1_048_563
    return replays([
        ("open 1\nsend 1 " + largest, "1 300c02010178070a010204000400\n", "the largest message"),
        ("open 1\nsend 1 3083100001\nsend 1 00", NOTICE_LINE, "one octet more"),
    ])
