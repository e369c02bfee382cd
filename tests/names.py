"""Names: the examples of RFC 4514 section 4, the one printed form, their order, and how long they may be."""

from opened import line, opened, put
from program import Run, Status, test

# A text of a name, the name as it is printed, what an entry of the name is given beside its two classes, and the values
# that it then has of its own RDN.
FORMS = [
    ("UID=jsmith,DC=example,DC=net", "uid=jsmith,dc=example,dc=net", ("cn", "x"), [("uid", "jsmith")]),
    (
        "OU=Sales+CN=J.  Smith,DC=example,DC=net",
        "cn=J.  Smith+ou=Sales,dc=example,dc=net",
        ("uid", "x"),
        [("cn", "J.  Smith"), ("ou", "Sales")],
    ),
    (
        "CN=James \\\"Jim\\\" Smith\\, III,DC=example,DC=net",
        "cn=James \\\"Jim\\\" Smith\\, III,dc=example,dc=net",
        ("uid", "x"),
        [("cn", "James \"Jim\" Smith, III")],
    ),
    ("CN=Before\\0dAfter,DC=example,DC=net", "cn=Before\rAfter,dc=example,dc=net", ("uid", "x"), [("cn", "Before\rAfter")]),
    ("CN=Lu\\C4\\8Di\\C4\\87", "cn=Lu\u010Di\u0107", ("uid", "x"), [("cn", "Lu\u010Di\u0107")]),
    ("cn=a\\,b+uid=x, dc=example", "cn=a\\,b+uid=x,dc=example", ("l", "x"), [("cn", "a,b"), ("uid", "x")]),
    ("2.5.4.3=x", "cn=x", ("uid", "x"), [("cn", "x")]),
    (" cn = \\ a b\\  , dc = t ", "cn=\\ a b\\ ,dc=t", ("uid", "x"), [("cn", " a b ")]),
    ("cn=\\ ", "cn=\\ ", ("uid", "x"), [("cn", " ")]),
    ("cn=\\#a#", "cn=\\#a#", ("uid", "x"), [("cn", "#a#")]),
    ("cn=a\\00b", "cn=a\\00b", ("uid", "x"), [("cn", "a\0b")]),
    ("cn=a\\=b=c", "cn=a=b=c", ("uid", "x"), [("cn", "a=b=c")]),
    ("cn=\\3c\\3E\\;\\\\", "cn=\\<\\>\\;\\\\", ("uid", "x"), [("cn", "<>;\\")]),
]

DEVICE, PERSON = "objectClass: device\n", "objectClass: person\n"

# Names in their order, each but the first with its classes and values: values that end where others go on, with the
# octets 00, 01 and 02 and the letter of U+00FF, and types in the order of their numbers.
ORDERED = [
    ("dc=t", "objectClass: domain\n", [("dc", "t")]),
    ("cn=\\00,dc=t", DEVICE, [("cn", "\0")]),
    ("cn=\\00+sn=a,dc=t", PERSON, [("cn", "\0"), ("sn", "a")]),
    ("cn=\\00\\00,dc=t", DEVICE, [("cn", "\0\0")]),
    ("cn=\\00\x01,dc=t", DEVICE, [("cn", "\0\x01")]),
    ("cn=\x01,dc=t", DEVICE, [("cn", "\x01")]),
    ("cn=\x02,dc=t", DEVICE, [("cn", "\x02")]),
    ("cn=a,dc=t", DEVICE, [("cn", "a")]),
    ("cn=x,cn=a,dc=t", DEVICE, [("cn", "x")]),
    ("cn=a+sn=a,dc=t", PERSON, [("cn", "a"), ("sn", "a")]),
    ("cn=a+ou=a,dc=t", DEVICE, [("cn", "a"), ("ou", "a")]),
    ("cn=a\\00,dc=t", DEVICE, [("cn", "a\0")]),
    ("cn=a\\00b,dc=t", DEVICE, [("cn", "a\0b")]),
    ("cn=a\x01,dc=t", DEVICE, [("cn", "a\x01")]),
    ("cn=aa,dc=t", DEVICE, [("cn", "aa")]),
    ("cn=\u00FF,dc=t", DEVICE, [("cn", "\u00FF")]),
    ("sn=a,dc=t", PERSON, [("cn", "a"), ("sn", "a")]),
    ("ou=Z,dc=t", "objectClass: organizationalUnit\n", [("ou", "Z")]),
    ("uid=a,dc=t", "objectClass: account\n", [("uid", "a")]),
    ("dc=a,dc=t", "objectClass: domain\n", [("dc", "a")]),
]

# Two spellings of one name.
SAME = [
    ("cn=A  B,dc=t", "CN=a b,DC=T"),
    ("cn=a+uid=b,dc=t", "uid=B+cn=A,dc=t"),
    ("2.5.4.3=a\\2c b,dc=t", "cn = A\\,  B , dc=t"),
]

# Texts that are no RDN alone.
NO_RDNS = ["", " ", "cn=a,dc=b", "xx=a,dc=b", "xx=a", "cn", "cn=a+cn=b"]

# Texts of names of which each type may not stand, in a data file.
NO_NAMES = ["dc=", "xx=a", "1.2.3=a", "cn=a,xx=b", "member=a", "userPassword=a", "cn=a+CN=b", "cn=\\ff", "dc=\\c3\\a9", "c=deu"]


def records(rows):
    """The records of names with their classes and values, as they are put."""
    return "version: 1\n" + "".join(
        "\n" + put("dn", name) + classes + "".join(put(kind, value) for kind, value in values) for name, classes, values in rows
    )


def below(count):
    """A data file of so many domains, each below the one before."""
    names = [",".join(["dc=a"] * size) for size in range(1, count + 1)]
    return "".join(f"dn: {name}\nobjectClass: domain\n\n" for name in names)


@test
def a_text_is_printed_in_the_one_form():
    classes = "objectClass: device\nobjectClass: uidObject\n"
    return [
        Run("dump d", records([(name, classes, [given, *own])]), text, data=line("dn", text) + classes + put(*given))
        for text, name, given, own in FORMS
    ]


@test
def names_are_ordered_by_types_and_keys_from_the_root():
    shuffled = [ORDERED[0], *sorted(ORDERED[1:], key=lambda row: (row[0].count(",cn="), row[0][::-1]))]
    return [Run("dump d", records(ORDERED), "against their order", data=records(shuffled))]


@test
def a_name_has_many_spellings():
    lines = "objectClass: device\nobjectClass: uidObject\nuid: b\ncn: a\n"
    files = [records([ORDERED[0]]) + f"\n{line('dn', one)}{lines}\n{line('dn', other)}{lines}" for one, other in SAME]
    return [Run("check d", "bad data line 13: twice\n", "two spellings", Status.BAD_DATA, data) for data in files]


@test
def a_name_of_a_type_that_may_not_name_is_none():
    return [Run("check d", "bad data line 1: name\n", name, Status.BAD_DATA, line("dn", name) + DEVICE) for name in NO_NAMES]


@test
def one_rdn_alone_is_a_new_name():
    data = opened("dn: cn=x,dc=example\nobjectClass: device\ncn: x\n")
    asks = [f"dn: cn=x,dc=example\ndo: rename\n{line('newrdn', rdn)}" for rdn in NO_RDNS]
    return [Run("ask d s", "# 1 34\n", rdn, data=data, script=script) for rdn, script in zip(NO_RDNS, asks)]


@test
def a_value_of_a_name_has_at_most_65536_octets_and_a_name_64_rdns():
    long = [f"dn: cn={'a' * size}\nobjectClass: device\n" for size in (65_536, 65_537)]
    return [
        Run("check d", "ok 1 0\n", "65,536 octets", data=long[0]),
        Run("check d", "bad data line 1: name\n", "one octet more", Status.BAD_DATA, long[1]),
        Run("check d", "ok 64 0\n", "64 RDNs", data=below(64)),
        Run("check d", "bad data line 193: name\n", "one RDN more", Status.BAD_DATA, below(65)),
    ]
