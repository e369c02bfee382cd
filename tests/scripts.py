"""Scripts: each form of a line, and the first bad line of other texts."""

from messages import BOUND_LINE, NOTICE_LINE
from program import Run, Status, replays, test

# Scripts, what is put, and what that shows.
SCRIPTS = [
    ("", "", "no line"),
    ("open 1\n", "1 -\n", "one line"),
    ("open 1\nend 1", "1 - closed\n", "the last line lacks its end"),
    ("open 1\r\nsend 1 00\r\n", NOTICE_LINE, "CR LF"),
    ("open 1\r\nopen 2\nend 1\r\n", "1 - closed\n2 -\n", "both line ends"),
    ("\n\nopen 1\n\r\n", "1 -\n", "empty lines"),
    ("# one\nopen 1\n#\n#end 1\n# \r\nend 1", "1 - closed\n", "comments"),
    ("open 1\n# last\r", "1 -\n", "a comment that ends in CR"),
    ("open 1\nsend 1 300C02010160070201030400800030050201024200", BOUND_LINE[:-1] + " closed\n", "upper case"),
    ("open 01\nsend 0000000001 300c020101600702010304008000\nend 001", BOUND_LINE[:-1] + " closed\n", "leading zeros"),
    ("open 4294967295\n", "4294967295 -\n", "the highest number"),
    ("open 9\nopen 3\nend 9\nsend 3 3003\n", "3 -\n9 - closed\n", "numbers in any order"),
    ("open 1\nend 1\nopen 2\n", "1 - closed\n2 -\n", "a number opened after another ended"),
    ("#\udcff\0\nopen 1", "1 -\n", "octets that are no text in a comment"),
]

# Other texts, the first bad line of each, and what that shows.
OTHER_TEXTS = [
    ("open 1\nclose 1\n", 2, "a word of none"),
    ("open\n", 1, "no number"),
    ("open \n", 1, "no digit"),
    ("OPEN 1\n", 1, "upper case words"),
    ("open 0\n", 1, "number zero"),
    ("open 4294967296\n", 1, "number above the highest"),
    ("open 9999999999\n", 1, "ten nines"),
    ("open 00000000001\n", 1, "eleven digits"),
    ("open +1\n", 1, "a sign"),
    ("open 1a\n", 1, "hexadecimal in a number"),
    ("open  1\n", 1, "two spaces after open"),
    ("open 1\nsend 1  00\n", 2, "two spaces after the number"),
    (" open 1\n", 1, "a space before"),
    ("open 1 \n", 1, "a space after"),
    (" \n", 1, "a line of a space"),
    ("open\t1\n", 1, "a tab"),
    ("open 1 # one\n", 1, "a comment after a line"),
    ("open 1\nsend 1 0\n", 2, "odd digits"),
    ("open 1\nsend 1 000\n", 2, "three digits"),
    ("open 1\nsend 1 \n", 2, "no octets"),
    ("open 1\nsend 1\n", 2, "no second word"),
    ("open 1\nsend 1 0g\n", 2, "no hexadecimal digit"),
    ("open 1\nsend 1 00 00\n", 2, "a space between pairs"),
    ("open 1\nsend 1 00 \n", 2, "a space after pairs"),
    ("open 1\nopen 01\n", 2, "opened twice"),
    ("open 1\nend 1\nopen 1\n", 3, "opened again after its end"),
    ("send 1 00\nopen 1\n", 1, "send before open"),
    ("open 2\nend 1\n", 2, "end before open"),
    ("open 1\nend 1\nsend 1 00\n", 3, "send after end"),
    ("open 1\nend 1\nend 1\n", 3, "end twice"),
    ("open 1\n\n# x\nend 2\nopen 1\n", 4, "the first of two bad lines"),
    ("open 1\nend 1\r", 2, "CR at the end of a line without LF"),
    ("open 1\n\udcff", 2, "octets that are no text"),
]


@test
def good_scripts_give_their_events():
    return replays(SCRIPTS)


@test
def other_texts_give_their_first_bad_line():
    return [
        Run("replay d s", f"bad script line {line}\n", what, Status.BAD_SCRIPT, script=script)
        for script, line, what in OTHER_TEXTS
    ]
