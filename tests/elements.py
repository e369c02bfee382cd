"""Elements: where a message ends, each form of a length, tags and integers (RFC 4511 5.1, X.690 8.1 and 8.3)."""

from messages import BOUND_LINE, NOTICE_LINE
from opened import element, line, opened, sent, text
from program import Run, test

NOTHING = "1 -\n"
UNBOUND = "1 - closed\n"

# What is sent, an anonymous bind or an unbind, what is put, and what that shows.
LENGTHS = [
    ("30810c020101600702010304008000", BOUND_LINE, "one octet of length, not the shortest"),
    ("3082000c020101600702010304008000", BOUND_LINE, "two octets"),
    ("308300000c020101600702010304008000", BOUND_LINE, "three octets"),
    ("30811002810101608200080201030481008000", BOUND_LINE, "long forms inside, of one octet and of two"),
    ("300f020101600a02010304830000008000", BOUND_LINE, "one of three octets"),
    ("3010020101600b0201030484000000008000", BOUND_LINE, "one of four octets"),
    ("3084000000050201024200", UNBOUND, "four octets for five"),
    ("300702010242008100", UNBOUND, "a further component"),
    ("30090201024200a0008100", UNBOUND, "controls, and a further component"),
    ("30", NOTHING, "a tag alone"),
    ("3081", NOTHING, "a long form without its octet"),
    ("3084000000", NOTHING, "three octets of four"),
    ("300502010242", NOTHING, "less than the content"),
    ("300c02010160070201030400800030", BOUND_LINE, "a message, and the tag of another"),
    ("3084ffffffff", NOTICE_LINE, "the greatest length"),
    ("3085", NOTICE_LINE, "five octets of length"),
    ("30ff", NOTICE_LINE, "the reserved length"),
    ("1f", NOTICE_LINE, "a tag of more octets"),
    ("ff8101", NOTICE_LINE, "another tag of more octets"),
    ("300c020101600702010304808000", NOTICE_LINE, "the indefinite length inside"),
    ("3011020101600c020103048500000000008000", NOTICE_LINE, "five octets inside"),
    ("300c020101600702010304ff8000", NOTICE_LINE, "the reserved length inside"),
    ("300702010242001f00", NOTICE_LINE, "a tag of more octets inside"),
    ("30080201024200ff8101", NOTICE_LINE, "another one inside"),
    ("3006020102420081", NOTICE_LINE, "a further component without a length"),
    ("30080201024200818311", NOTICE_LINE, "one with one octet of length of three"),
    ("300b02010242008184ffffffff", NOTICE_LINE, "one with the greatest length"),
    ("300902010242008100a000", NOTICE_LINE, "controls behind a further component"),
]

# The contents of integers that are messageIDs.
NUMBERS = ["01", "7f", "0080", "00ff", "0100", "7fff", "008000", "00ffff", "010000", "7fffffff"]

# Contents that are none, and what that shows.
NO_NUMBERS = [
    ("", "no octet"),
    ("00", "0"),
    ("ff", "-1"),
    ("80", "-128"),
    ("ff7f", "-129"),
    ("007f", "a zero that only repeats the sign"),
    ("ff80", "a set octet that only repeats the sign"),
    ("000080", "two zeros"),
    ("0080000000", "2^31"),
    ("7fffffffffffffff", "the greatest of eight octets"),
    ("8000000000000000", "the least of eight octets"),
    ("010000000000000000", "nine octets"),
]

# How many octets a value has: each is of another size of length, itself or in what it stands in.
SIZES = [1, 87, 88, 127, 128, 215, 216, 255, 256, 65_495, 65_496, 65_535, 65_536]


@test
def each_form_of_a_length_is_read_and_others_are_refused():
    return [Run("replay d s", put, what, script=sent(octets)) for octets, put, what in LENGTHS]


@test
def a_message_is_answered_under_its_number():
    rows = [(number, element("30", element("02", number), "600702010304008000")) for number in NUMBERS]
    return [
        Run("replay d s", f"1 {element('30', element('02', number), '61070a010004000400')}\n", number, script=sent(octets))
        for number, octets in rows
    ]


@test
def other_integers_are_no_number_of_a_message():
    return [
        Run("replay d s", NOTICE_LINE, what, script=sent(element("30", element("02", number), "4200")))
        for number, what in NO_NUMBERS
    ]


@test
def the_shortest_length_is_written():
    runs = []
    for size in SIZES:
        value = "a" * size
        data = opened("dn: cn=x,dc=example\nobjectClass: device\n" + line("description", value))
        search = element("63", text("04", "cn=x,dc=example"), "0a01000a0100020100020100010100", text("87", "objectClass"),
                         element("30", text("04", "description")))
        attribute = element("30", text("04", "description"), element("31", text("04", value)))
        entry = element("64", text("04", "cn=x,dc=example"), element("30", attribute))
        put = element("30", "020101", entry) + "300c02010165070a010004000400"
        script = sent(element("30", "020101", search))
        runs.append(Run("replay d s", f"1 {put}\n", f"a value of {size} octets", data=data, script=script))
    return runs


@test
def a_length_of_four_octets_is_written():
    value = "a" * 16_777_216
    compare = element("6e", text("04", "dc=u"), element("30", text("04", "description"), text("04", value)))
    put = f"open 1\nsend 1 {element('30', '020101', compare)}\n"
    return [Run("ask d s --script", put, "a value of 2^24 octets", script=f"dn: dc=u\ndo: compare\ndescription: {value}\n")]
