"""What `check` with `--why` puts: where a refused data file is at fault, and what may surprise in a good one."""

from program import USAGE, Run, Status, test
from trees import TWO_ENTRIES

# An area of access control with a subentry, up to the two lines that rules have in it.
AREA = """\
dn: o=x
objectClass: organization
administrativeRole: accessControlSpecificArea

dn: cn=s,o=x
objectClass: subentry
objectClass: accessControlSubentry
"""

# The line of the subentry's name, and those of its two values behind its classes.
NAME_LINE, SUBTREE_LINE, ITEM_LINE = 5, 8, 9

# The fronts of an item: its tag, its precedence, and its permissions for all users.
TAG = '{ identificationTag "t", '
LEVEL = TAG + "precedence 10, authenticationLevel "
USERS = LEVEL + "none, itemOrUserFirst userFirst:{ userClasses { "
PERMISSIONS = USERS + "allUsers }, userPermissions { { protectedItems { "
BITS = PERMISSIONS + "entry }, grantsAndDenials { "

# The ends of an item: behind its bits, and behind its precedence.
CLOSED = " } } } } }"
OPEN_TO_ALL = "authenticationLevel none, itemOrUserFirst userFirst:{ userClasses { allUsers }, userPermissions { } } }"

# What of an item is read, what is in the way behind it, how that is said, and what that shows.
MISTAKES = [
    (BITS + "grantRead } } } }", "", "the end", "a missing brace"),
    (BITS, "grantRaed" + CLOSED, '"grantRaed"', "a misspelled bit"),
    (BITS, "GrantRead" + CLOSED, '"GrantRead"', "a bit with a capital letter"),
    (PERMISSIONS + "attributeType { cn }, ", "entry }, grantsAndDenials { grantRead" + CLOSED, '"entry"', "another order"),
    ('{ identificationTag "t" ', "precedence 10, " + OPEN_TO_ALL, '"precedence"', "a missing comma"),
    ("{ identificationTag ", "\u201ct\u201d, precedence 10, " + OPEN_TO_ALL, '"\u201ct\u201d"', "quotation marks of print"),
    (TAG + "precedence ", "256, " + OPEN_TO_ALL, '"256"', "a precedence past 255"),
    (TAG, OPEN_TO_ALL, '"authenticationLevel"', "no precedence"),
    (PERMISSIONS + "attributeType { ", "mial } }, grantsAndDenials { grantRead" + CLOSED, '"mial"', "a type that is none"),
    (
        LEVEL + "none, itemOrUserFirst userFirst ",
        "{ userClasses { allUsers }, userPermissions { } } }",
        '"{"',
        "a missing colon",
    ),
    (
        LEVEL,
        "weak, itemOrUserFirst userFirst:{ userClasses { allUsers }, userPermissions { } } }",
        '"weak"',
        "a level that is none",
    ),
    (USERS + "subtree { { base ", "ou=people } } }, userPermissions { } } }", '"ou=people"', "a base without quotation marks"),
]

# The same of a subtree specification.
SUBTREE_MISTAKES = [
    ("{ base ", "ou=people }", '"ou=people"', "a base without quotation marks"),
    ("{ minimum 1, ", 'base "ou=people" }', '"base"', "another order"),
    ('{ base "ou=people"', "", "the end", "a missing brace"),
]

# Refused files, what is put, and what that shows.
REFUSED = [
    (
        "dn: o=x\nobjectClass: organization\nzz: t\n",
        'bad data line 3: type\nwhy: line 3: no attribute type "zz"\n',
        "a type that is none",
    ),
    (
        "dn: cn=a\nobjectClass: inetOrgPerson\n",
        'bad data line 1: rule 65\nwhy: line 1: sn is missing, which "inetOrgPerson" requires\n',
        "a missing attribute",
    ),
    (
        "dn: cn=a\nobjectClass: person\nsn: a\nmail: a@x\nmobile: 1\n",
        "bad data line 1: rule 65\nwhy: line 4: no listed class allows mail\nwhy: line 5: no listed class allows mobile\n",
        "two attributes that no class allows",
    ),
    (
        "dn: o=x\nobjectClass: organization\n\ndn: cn=a,ou=b,o=x\nobjectClass: device\n",
        "bad data line 4: order\nwhy: line 4: no record before it is the entry above it\n",
        "an entry without one above it",
    ),
    ("", 'bad data line 1: syntax\nwhy: no record, which begins with "dn: name"\n', "no record"),
]

# An area, in which a user, a base or a password follows.
POINT = "dn: o=x\nobjectClass: organization\nadministrativeRole: autonomousArea\n"

# Good files, what is put, and what that shows.
GOOD = [
    (POINT, "ok 1 0\n", "nothing that may surprise"),
    (
        TWO_ENTRIES,
        "ok 2 0\nnote: no entry is an access control specific point (administrativeRole): nobody may do anything\n",
        "no administrative point",
    ),
    (
        POINT + "entryACI: " + USERS + 'name { "o=x", "cn=gone,o=x" } }, userPermissions { } } }\n',
        "ok 1 0\nnote: o=x, entryACI, value 1: no entry cn=gone,o=x\n",
        "a user that is no entry",
    ),
    (
        POINT
        + "\ndn: ou=a,o=x\nobjectClass: organizationalUnit\n"
        + '\ndn: cn=s,o=x\nobjectClass: subentry\nsubtreeSpecification: { base "ou=a,o=x" }\n',
        "ok 3 0\nnote: cn=s,o=x, subtreeSpecification, value 1: it holds no entry; its base is read from the entry above\n",
        "a base that is read from the root",
    ),
    (
        POINT + "userPassword: secret\nuserPassword: {SSHA}abc\n",
        "ok 1 0\nnote: o=x, userPassword, value 2: no password is accepted, whose scheme is another than {SHA256}\n",
        "a password of another scheme",
    ),
]

# Lines that ask why and are no command.
NO_COMMANDS = [
    "check d --why --changes s",
    "check --changes=s --why d",
    "check d --why --why",
    "check d --why=1",
    "check --why",
    "dump d --why",
]


def stopped(line, kind, front, word):
    """What is put of the value of a type at a line that is read up to a word."""
    octet = len(front.encode()) + 1
    return f"bad data line {NAME_LINE}: rule 21\nwhy: line {line}, {kind}, value 1, octet {octet}: {word}\n"


@test
def why_names_the_place_of_each_mistake_of_an_item():
    return [
        Run(
            "check d --why",
            stopped(ITEM_LINE, "prescriptiveACI", front, word),
            what,
            Status.BAD_DATA,
            f"{AREA}subtreeSpecification: {{ }}\nprescriptiveACI: {front}{rest}\n",
        )
        for front, rest, word, what in MISTAKES
    ]


@test
def why_names_the_place_of_each_mistake_of_a_subtree_specification():
    return [
        Run(
            "check d --why",
            stopped(SUBTREE_LINE, "subtreeSpecification", front, word),
            what,
            Status.BAD_DATA,
            f"{AREA}subtreeSpecification: {front}{rest}\nprescriptiveACI: {TAG}precedence 10, {OPEN_TO_ALL}\n",
        )
        for front, rest, word, what in SUBTREE_MISTAKES
    ]


@test
def why_names_what_is_at_fault_in_a_record():
    return [
        Run(line, put, what, Status.BAD_DATA, data)
        for data, put, what in REFUSED
        for line in ("check d --why", "check --why d")
    ]


@test
def why_notes_what_may_surprise_in_a_good_file():
    return [Run("check d --why", put, what, data=data) for data, put, what in GOOD]


@test
def why_takes_one_file_that_is_there():
    return [
        Run("check other --why", "data fault\n", "no file", Status.SHELF_FAULT),
        *(Run(line, USAGE, line, Status.USAGE) for line in NO_COMMANDS),
    ]
