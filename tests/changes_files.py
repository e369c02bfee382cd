"""Files of changes, as change records of a data file, applied to it by `check` and `dump`."""

import hashlib

from program import USAGE, Run, Status, test

# A person in a unit of a domain; the number stands last.
PERSON = """\
dn: dc=u
objectClass: domain
dc: u

dn: ou=b,dc=u
objectClass: organizationalUnit
ou: b

dn: uid=ida,ou=b,dc=u
objectClass: inetOrgPerson
uid: ida
cn: Ida
sn: Falk
telephoneNumber: +47 55 55 01 01
"""

# The same, put as a data file.
PERSON_PUT = "version: 1\n\n" + PERSON

# The name of the person.
IDA = "uid=ida,ou=b,dc=u"


def head(data):
    """The head of a file of changes of a data file: three lines."""
    return f"version: 1\n# of sha256 {hashlib.sha256(data.encode()).hexdigest()}\n\n"


def record(name, kind, *lines):
    """A change record with the empty line behind it."""
    return "\n".join([f"dn: {name}", f"changetype: {kind}", *lines]) + "\n\n"


# Another number, and what it leaves.
NUMBER = record(IDA, "modify", "replace: telephoneNumber", "telephoneNumber: +47 55 55 01 02", "-")
NUMBERED = PERSON_PUT.replace("01 01", "01 02")

# One person more, and what that leaves.
JON_LINES = ["objectClass: inetOrgPerson", "uid: jon", "cn: Jon", "sn: Falk"]
JON = record("uid=jon,ou=b,dc=u", "add", *JON_LINES)
JOINED = PERSON_PUT + "\ndn: uid=jon,ou=b,dc=u\n" + "\n".join(JON_LINES) + "\n"

# The person goes.
GONE = record(IDA, "delete")

# Changes behind a head, how many entries are left of three, how many changes were applied, and what that shows.
COUNTS = [
    ("", 3, 0, "a head alone"),
    (NUMBER, 3, 1, "another number"),
    (JON, 4, 1, "a person more"),
    (GONE, 2, 1, "a person less"),
    (GONE + record("ou=b,dc=u", "delete"), 1, 2, "a person less, and then the unit"),
    (record(IDA, "modrdn", "newrdn: uid=eva", "deleteoldrdn: 1"), 3, 1, "another name"),
    (
        record(IDA, "modrdn", "newrdn: uid=eva", "deleteoldrdn: 0") + record("uid=eva,ou=b,dc=u", "delete"),
        2,
        2,
        "another name, which then is deleted",
    ),
    (
        record(IDA, "modrdn", "newrdn: uid=ida", "deleteoldrdn: 0", "newsuperior: dc=u") + record("ou=b,dc=u", "delete"),
        2,
        2,
        "out of the unit, which then has none below it",
    ),
    (GONE + JON + GONE.replace("ida", "jon"), 2, 3, "three changes"),
    (record(IDA, "modify", "add: mail", "mail: ida@u", "mail: i@u", "-", "delete: telephoneNumber", "-"), 3, 1, "two changes of one entry"),
    (record(IDA, "modify", "delete: telephoneNumber", "telephoneNumber: +47 55 55 01 01", "-"), 3, 1, "a value that goes"),
]

# Spellings of one change.
SPELLINGS = [
    (NUMBER, "as it is written"),
    (NUMBER.replace("dn: " + IDA, "dn:: dWlkPWlkYSxvdT1iLGRjPXU="), "the name in base64"),
    (NUMBER.replace("telephoneNumber: +47 55 55 01 02", "telephoneNumber:: KzQ3IDU1IDU1IDAxIDAy"), "the value in base64"),
    (NUMBER.replace("changetype: modify", "changetype:: bW9kaWZ5"), "the kind in base64"),
    (NUMBER.replace("+47 55 55", "+47 55\n  55"), "a folded line"),
    (NUMBER.replace("changetype", "# a word,\n  and more of it\nchangetype"), "a comment of two lines"),
    (NUMBER + "\n\n", "empty lines behind it"),
    ("# a word\n\n" + NUMBER, "a comment alone before it"),
    (NUMBER.replace("uid=ida,ou=b,dc=u", "UID=Ida, OU=B, DC=U"), "another spelling of the name"),
]

# What stands behind the last whole record, in octets.
TORN = [
    ("dn: uid=ida", 11, "half a line"),
    (f"dn: {IDA}\nchangetype: delete\n", 41, "a record without its empty line"),
    ("\0" * 7, 7, "zeros"),
    ("x", 1, "an octet"),
]

# Beginnings of a head, which a server that went down may leave.
TORN_HEADS = [
    ("", "no octets"),
    ("v", "an octet"),
    ("version: 1\n# of", "half a head"),
    (head(PERSON)[:-1], "a head without its empty line"),
]

# Files that aren't accepted, each with its first bad line and the cause; the records begin in line 4.
BAD_FILES = [
    ("\n", "1: syntax", "an empty line"),
    ("version: 1\n# of sha1", "1: syntax", "half a head of another form"),
    (head("")[:-1], "1: syntax", "a head of another data file without its empty line"),
    (head(PERSON)[:-1] + "x", "1: syntax", "an octet more on the line of a head"),
    ("dn: dc=u\n\n" + head(PERSON), "1: syntax", "another block before the head"),
    (head(PERSON).replace("sha256", "sha1"), "1: syntax", "another digest"),
    (head(""), "2: digest", "the digest of nothing"),
    (head(PERSON_PUT) + NUMBER, "2: digest", "the digest of another data file of the same entries"),
    (head("") + "nothing\n\n", "4: syntax", "another digest, and a bad line"),
    (head(PERSON) + "nothing\n\n", "4: syntax", "no type"),
    (head(PERSON) + f"dn: {IDA}\n\n", "4: syntax", "no kind of change"),
    (head(PERSON) + record(IDA, "change"), "5: syntax", "a kind of change that there isn't"),
    (head(PERSON) + record(IDA, "moddn", "newrdn: uid=eva", "deleteoldrdn: 1"), "5: syntax", "another word for a new name"),
    (head(PERSON) + record(IDA, "delete", "uid: ida"), "6: syntax", "a line behind a delete"),
    (head(PERSON) + record(IDA, "modify", "mail: a"), "6: syntax", "no operation"),
    (head(PERSON) + NUMBER + "nothing\n\n", "10: syntax", "a bad line behind a change"),
    (head(PERSON) + record("uid=jon,ou=b,dc=u", "add", "uid: jon", "changetype: add"), "7: changetype", "a kind of change among attributes"),
    (head(PERSON) + NUMBER.replace("telephoneNumber: +47", "telephoneNumber:: +47"), "7: base64", "a value that isn't base64"),
    (head(PERSON) + record(IDA, "delete").replace("dn: ", "dn:: "), "4: base64", "a name that isn't base64"),
    (head(PERSON) + record("x", "delete"), "4: code 34", "no name"),
    (head(PERSON) + record("uid=jon,ou=b,dc=u", "delete"), "4: code 32", "no such entry"),
    (head(PERSON) + GONE + GONE, "7: code 32", "deleted before"),
    (head(PERSON) + record("ou=b,dc=u", "delete"), "4: code 66", "an entry with one below it"),
    (head(PERSON) + record("dc=u", "delete"), "4: code 53", "the suffix"),
    (head(PERSON) + JON + JON, "11: code 68", "added before"),
    (head(PERSON) + JON.replace("ou=b,", "ou=c,"), "4: code 32", "no superior"),
    (head(PERSON) + JON.replace("sn: Falk\n", ""), "4: code 65", "an attribute that the class demands"),
    (head(PERSON) + record(IDA, "modify", "delete: mail", "-"), "4: code 16", "an attribute that isn't there"),
    (head(PERSON) + record(IDA, "modify", "add: cn", "cn: Ida", "-"), "4: code 20", "a value that is there"),
    (head(PERSON) + NUMBER + JON + record(IDA, "modify", "replace: sn", "-"), "17: code 65", "the third change"),
    (head(PERSON) + record("ou=b,dc=u", "modrdn", "newrdn: ou=c", "deleteoldrdn: 1"), "4: code 66", "a new name over entries"),
    (head(PERSON) + JON + record(IDA, "modrdn", "newrdn: uid=jon", "deleteoldrdn: 1"), "11: code 68", "a name that another has"),
]


def changed(line, changes, put, what, status=Status.DONE, data=PERSON):
    """A run over the person, or another data file, with a file of changes."""
    return Run(line, put, what, status, data, changes)


@test
def changes_are_applied_and_counted():
    return [
        changed(line, head(PERSON) + changes, f"ok {entries} 0\nchanges {count} torn 0\n", what)
        for changes, entries, count, what in COUNTS
        for line in ("check d --changes s", "check --changes=s d")
    ]


@test
def a_tree_is_put_with_its_changes():
    return [
        changed("dump d --changes s", head(PERSON), PERSON_PUT, "no change"),
        changed("dump d --changes s", head(PERSON) + NUMBER, NUMBERED, "another number"),
        changed("dump d --changes s", head(PERSON) + JON, JOINED, "a person more"),
        changed("dump d --changes s", head(PERSON) + JON + GONE.replace("ida", "jon"), PERSON_PUT, "a person more, and less"),
        changed("dump d --changes s", head(PERSON_PUT) + NUMBER, NUMBERED, "of what was put", data=PERSON_PUT),
    ]


@test
def a_change_has_many_spellings():
    return [changed("dump d --changes s", head(PERSON) + changes, NUMBERED, what) for changes, what in SPELLINGS]


@test
def a_torn_end_counts_as_not_there():
    return [
        run
        for end, torn, what in TORN
        for run in (
            changed("check d --changes s", head(PERSON) + end, f"ok 3 0\nchanges 0 torn {torn}\n", what),
            changed("check d --changes s", head(PERSON) + GONE + end, f"ok 2 0\nchanges 1 torn {torn}\n", what),
            changed("dump d --changes s", head(PERSON) + NUMBER + end, NUMBERED, what),
        )
    ]


@test
def a_torn_head_has_no_changes():
    return [
        run
        for text, what in TORN_HEADS
        for run in (
            changed("check d --changes s", text, f"ok 3 0\nchanges 0 torn {len(text)}\n", what),
            changed("dump d --changes s", text, PERSON_PUT, what),
        )
    ]


@test
def a_file_of_changes_is_refused_at_its_first_bad_line():
    return [
        changed(f"{name} d --changes s", changes, f"bad changes line {put}\n", what, Status.BAD_DATA)
        for changes, put, what in BAD_FILES
        for name in ("check", "dump")
    ]


@test
def the_data_file_is_refused_before_its_changes():
    bad = "dn: dc=u\nobjectClass: domain\n\ndn: =t\ndc: t\n"
    refusal = "bad data line 4: name\n"
    return [
        changed("check d --changes s", head(bad), refusal, "its own changes", Status.BAD_DATA, bad),
        changed("check d --changes s", "nothing", refusal, "no changes", Status.BAD_DATA, bad),
        changed("dump d --changes t", "", refusal, "no file of changes", Status.BAD_DATA, bad),
        changed("check t --changes s", head(PERSON), "data fault\n", "no data file", Status.SHELF_FAULT),
        changed("check d --changes t", head(PERSON), "data fault\n", "no file of changes", Status.SHELF_FAULT),
        changed("check d --changes -", head(PERSON), "data fault\n", "no file of the name -", Status.SHELF_FAULT),
    ]


@test
def words_without_the_option_give_what_they_gave():
    return [
        changed("check d", head(PERSON) + GONE, "ok 3 0\n", "check"),
        changed("dump d", head(PERSON) + GONE, PERSON_PUT, "dump"),
    ]


@test
def the_option_names_one_file():
    lines = ["check d --changes", "check d --changes s --changes s", "check d s --changes s", "check --changes s", "dump d --why",
             "replay d s --changes s", "check d --changes --turns"]
    return [changed(line, head(PERSON), USAGE, line, Status.USAGE) for line in lines]
