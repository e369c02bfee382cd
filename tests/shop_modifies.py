"""Modifies of a shop's entries (RFC 4511 4.6)."""

from program import test
from shop import ANN, ANYONE, BEN, BOX, OPEN, SHOP, VAULT
from steps import modify, steps

PHONE = "add: telephoneNumber\nvalue: +1 555 0102\n"

# Of each row below: who asks, the name, the changes and the answer.
UNREAD = [
    # the name, before all else
    (ANN, "ou", "add: zz\n", "34"),
    (ANN, "", "add: zz\n", "53"),
    (ANYONE, "", PHONE, "53"),
    # an add of nothing, before any type is looked at
    (ANN, BEN, "add: cn\n", "2"),
    (ANN, BEN, "add: zz\nvalue: x\nadd: cn\n", "2"),
    # the first change that is none, and in it the type, the values in their order, and then two that are equal
    (ANN, BEN, "delete: zz\n", "17"),
    (ANN, BEN, "add: zz\nvalue: x\nadd: c\nvalue: Nether\n", "17"),
    (ANN, BEN, "add: c\nvalue: Nether\nadd: zz\nvalue: x\n", "21"),
    (ANN, BEN, "delete: c\nvalue: NL\nvalue: Nether\n", "21"),
    (ANN, BEN, "replace: cn\nvalue: A\nvalue: a\n", "20"),
    (ANN, BEN, "add: cn\nvalue: A b\nvalue: a  B\n", "20"),
    (ANN, BEN, "delete: cn\nvalue: Ben\nvalue: ben\n", "20"),
    (ANN, BEN, "add: cn\nvalue: A\nvalue: a\nadd: zz\nvalue: x\n", "20"),
    (ANN, BEN, "replace: member\nvalue: x\nvalue: x\n", "21"),
    (BEN, "ou=none,dc=shop", "add: zz\nvalue: x\n", "17"),
    (ANYONE, BOX, "add: c\nvalue: x\n", "21"),
    (ANYONE, BEN, "add: cn\nvalue: A\nvalue: A\n", "20"),
]

HIDDEN = [
    (ANN, "ou=none,dc=shop", PHONE, "32 dc=shop"),
    (ANN, "cn=x,cn=box,ou=vault,dc=shop", PHONE, "32 cn=box,ou=vault,dc=shop"),
    (BEN, "cn=x,cn=box,ou=vault,dc=shop", PHONE, "32 dc=shop"),
    (ANYONE, "dc=other", PHONE, "32"),
    (ANYONE, BEN, PHONE, "50"),
    (BEN, "dc=shop", PHONE, "50"),
    (ANYONE, VAULT, PHONE, "32 dc=shop"),
    (ANYONE, BOX, "replace: mobile\n", "32 dc=shop"),
    (BEN, OPEN, PHONE, "32 dc=shop"),
]

NOT_ADDED = [
    # absent: the type, then each value
    (BEN, BEN, "add: mobile\nvalue: +1 555 0103\n", "50"),
    (BEN, ANN, "add: mail\nvalue: a@shop.example\n", "50"),
    (BEN, ANN, "add: description\nvalue: Slow\n", "50"),
    (BEN, ANN, "add: title\nvalue: Head\n", "50"),
    # there: an equal value, told to who may know of it or add it
    (BEN, BEN, "add: telephoneNumber\nvalue: +1-555-0101\n", "20"),
    (BEN, BEN, "add: mail\nvalue: BEN@shop.example\n", "20"),
    (BEN, BEN, "add: description\nvalue: fast\n", "20"),
    (BEN, BEN, "add: title\nvalue: clerk\n", "50"),
    (BEN, BEN, "add: sn\nvalue: B\n", "50"),
    # another value
    (BEN, BEN, "add: mail\nvalue: b@shop.example\n", "50"),
    (BEN, BEN, "add: telephoneNumber\nvalue: +1 555 0199\nvalue: +1 555 0101\n", "20"),
]

NOT_DELETED = [
    # a type: as absent to who may not know of it
    (BEN, BEN, "delete: mail\n", "50"),
    (BEN, BEN, "delete: sn\n", "16"),
    (BEN, BEN, "delete: description\n", "16"),
    (BEN, BEN, "delete: mobile\n", "16"),
    (BEN, ANN, "delete: title\n", "16"),
    (ANN, BEN, "delete: mobile\n", "16"),
    # values, each
    (BEN, BEN, "delete: mail\nvalue: ben@shop.example\n", "50"),
    (BEN, BEN, "delete: mail\nvalue: b@shop.example\n", "50"),
    (BEN, BEN, "delete: title\nvalue: Clerk\n", "16"),
    (BEN, BEN, "delete: telephoneNumber\nvalue: +1 555 0102\n", "16"),
    (BEN, BEN, "delete: cn\nvalue: Ben\nvalue: Bert\n", "16"),
    (ANN, BEN, "delete: mobile\nvalue: +1 555 0102\n", "16"),
]

NOT_REPLACED = [
    # the type, where values come and it was absent
    (BEN, ANN, "replace: description\nvalue: Slow\n", "50"),
    (BEN, BEN, "replace: mobile\nvalue: +1 555 0102\n", "50"),
    # and a value
    (BEN, ANN, "replace: title\nvalue: Head\n", "50"),
    # the type, where it was there and no values are given
    (BEN, BEN, "replace: mail\n", "50"),
    (BEN, BEN, "replace: description\n", "16"),
    (BEN, BEN, "replace: sn\n", "16"),
    # each value that goes: here the type may, and its value not
    (BEN, BEN, "replace: title\n", "16"),
    (BEN, BEN, "replace: title\nvalue: Head\n", "16"),
    (BEN, BEN, "replace: mail\nvalue: b@shop.example\n", "50"),
    # an equal value of other octets goes and comes
    (BEN, BEN, "replace: mail\nvalue: BEN@shop.example\n", "50"),
    (BEN, BEN, "replace: title\nvalue: CLERK\n", "16"),
    # a value that stays is not asked for, and one that comes is
    (BEN, BEN, "replace: mail\nvalue: ben@shop.example\nvalue: b@shop.example\n", "50"),
    (BEN, BEN, "replace: title\nvalue: Clerk\nvalue: Head\n", "50"),
]

BROKEN = [
    # a value of its own name
    (ANN, BEN, "delete: uid\nvalue: ben\n", "67"),
    (ANN, BEN, "delete: uid\n", "67"),
    (ANN, BEN, "replace: uid\nvalue: rob\n", "67"),
    # before other structural classes
    (ANN, BEN, "delete: uid\nreplace: objectClass\nvalue: account\n", "67"),
    (ANN, BEN, "replace: objectClass\nvalue: account\n", "69"),
    (ANN, BEN, "add: objectClass\nvalue: person\n", "69"),
    (ANN, BEN, "delete: objectClass\n", "69"),
    (ANN, BOX, "add: objectClass\nvalue: person\n", "69"),
    # classes and types that do not go together
    (ANN, BEN, "delete: sn\n", "65"),
    (ANN, BEN, "add: member\nvalue: dc=shop\n", "65"),
    (ANN, BEN, "add: objectClass\nvalue: dcObject\n", "65"),
    # access control items and subtrees
    (ANN, BEN, "add: entryACI\nvalue: { }\n", "21"),
    (ANN, OPEN, "replace: subtreeSpecification\nvalue: { base }\n", "21"),
    # a single value
    (ANN, "dc=shop", "add: dc\nvalue: market\n", "19"),
    # what stands below a subentry's superior
    (ANN, "dc=shop", "delete: administrativeRole\n", "64"),
    (ANN, "dc=shop", "replace: administrativeRole\n", "64"),
]

HALF = [
    (BEN, BEN, "add: telephoneNumber\nvalue: +1 555 0199\ndelete: mail\n", "50"),
    (BEN, BEN, "add: telephoneNumber\nvalue: +1 555 0199\ndelete: sn\nvalue: x\n", "16"),
    (BEN, BEN, "delete: cn\nvalue: Ben\ndelete: cn\nvalue: ben\n", "16"),
    (BEN, BEN, "delete: telephoneNumber\ndelete: telephoneNumber\n", "16"),
    (ANN, BEN, "add: mobile\nvalue: +1 555 0110\nadd: mobile\nvalue: +1 555 0110\n", "20"),
    (ANN, BEN, "delete: title\ndelete: sn\n", "65"),
]

# Lines of Ben's entry.
NAMES = "cn: Ben\ncn: Benjamin\n"
NUMBER = "telephoneNumber: +1 555 0101\n"
END = "description: Fast\n"

# Who asks, the changes of Ben's entry, lines of it, and what stands for them then.
DONE = [
    (BEN, PHONE, NUMBER, NUMBER + "telephoneNumber: +1 555 0102\n"),
    (BEN, "delete: telephoneNumber\n", NUMBER, ""),
    (BEN, "delete: cn\nvalue: BEN\n", NAMES, "cn: Benjamin\n"),
    # a replaced attribute keeps its place, and has the values as they are given
    (BEN, "replace: cn\nvalue: Benjamin\nvalue: Benny\n", NAMES, "cn: Benjamin\ncn: Benny\n"),
    (BEN, "replace: cn\nvalue: BEN\n", NAMES, "cn: BEN\n"),
    (BEN, "replace: telephoneNumber\n", NUMBER, ""),
    # the same octets are not asked for
    (BEN, "replace: mail\nvalue: ben@shop.example\n", "", ""),
    (BEN, "replace: sn\nvalue: B\n", "", ""),
    # an absent attribute by nothing
    (BEN, "replace: mobile\n", "", ""),
    # the values of a description alone
    (BEN, "add: description\nvalue: Good\n", END, END + "description: Good\n"),
    (BEN, "delete: description\nvalue: fast\n", END, ""),
    (BEN, "replace: description\nvalue: Slow\n", END, "description: Slow\n"),
    # decisions go by the entry before
    (ANN, "add: mobile\nvalue: +1 555 0110\ndelete: mobile\nvalue: +1 555 0110\n", "", ""),
    (
        ANN,
        "add: mobile\nvalue: +1 555 0110\nreplace: mobile\nvalue: +1 555 0111\nadd: mobile\nvalue: +1 555 0112\n",
        END,
        END + "mobile: +1 555 0111\nmobile: +1 555 0112\n",
    ),
    (
        ANN,
        "replace: title\nreplace: description\nvalue: a\nvalue: b\nvalue: c\n",
        "title: Clerk\n" + END,
        "description: a\ndescription: b\ndescription: c\n",
    ),
    (ANN, "add: cn\nvalue: B1\nvalue: B2\ndelete: cn\nvalue: b1\nvalue: ben\n", NAMES, "cn: Benjamin\ncn: B2\n"),
]

# The same of an attribute that goes with its last value, and comes last when it comes again: its line, and those that come.
LAST = [
    (
        BEN,
        "delete: telephoneNumber\nvalue: +1-555-0101\nadd: telephoneNumber\nvalue: +1 555 0102\nvalue: +1 555 0103\n",
        NUMBER,
        "telephoneNumber: +1 555 0102\ntelephoneNumber: +1 555 0103\n",
    ),
    # changes that would break a rule alone
    (ANN, "delete: sn\nadd: sn\nvalue: C\n", "sn: B\n", "sn: C\n"),
    (ANN, "delete: uid\nvalue: ben\nadd: uid\nvalue: ben\n", "uid: ben\n", "uid: ben\n"),
]


def refused(rows):
    """The run of modifies that are refused."""
    return [steps(SHOP, [(who, modify(name, lines), answer) for who, name, lines, answer in rows], "modifies", ANN)]


def done(who, lines, left):
    """The run of a modify of Ben's entry that is made, and what it leaves."""
    return steps(SHOP, [(who, modify(BEN, lines), "0")], lines, ANN, left)


@test
def a_request_that_cannot_be_read_is_told_so_whoever_asks():
    return refused(UNREAD)


@test
def an_entry_that_may_not_be_modified_is_hidden():
    return refused(HIDDEN)


@test
def a_value_comes_where_it_may_be_added():
    return refused(NOT_ADDED)


@test
def a_value_goes_where_it_may_be_removed():
    return refused(NOT_DELETED)


@test
def a_replace_asks_for_what_goes_and_for_what_comes():
    return refused(NOT_REPLACED)


@test
def an_entry_that_would_break_a_rule_stays():
    return refused(BROKEN)


@test
def all_changes_are_made_or_none():
    return refused(HALF)


@test
def an_entry_that_may_be_modified_has_its_changes():
    return ([done(who, lines, SHOP.replace(old, new, 1)) for who, lines, old, new in DONE]
            + [done(who, lines, SHOP.replace(line, "", 1).replace(END, END + new, 1)) for who, lines, line, new in LAST])
