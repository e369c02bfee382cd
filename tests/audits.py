"""Audits of recorded sessions: whether what others did in a subtree was hushed for a connection, and whether it shows."""

from program import Run, Status, test
from trees import ORGANISATION, TWO_ENTRIES

USAGE = "usage: leak_audit DATA SCRIPT N NAME\n"

# What an administrator sends: a bind; changes of the hidden part, of what stands beside it, and of what all may see.
ADA_BINDS = "302b0201016026020103041c7569643d6164612c6f753d70656f706c652c64633d6578616d706c658003616263"
ADDS_HIDDEN = "3047020102684204196f753d782c6f753d7365637265742c64633d6578616d706c6530253023040b6f626a656374436c617373311404126f7267616e697a6174696f6e616c556e6974"
DELETES_HIDDEN = "302a0201034a257569643d6576652c6f753d7661756c742c6f753d7365637265742c64633d6578616d706c65"
CHANGES_HIDDEN = "3036020104663104146f753d7365637265742c64633d6578616d706c65301930170a01023012040b6465736372697074696f6e3103040178"
RENAMES_HIDDEN = "30300201056c2b041d6f753d7661756c742c6f753d7365637265742c64633d6578616d706c6504076f753d736166650101ff"
ADDS_BESIDE = "3046020107684104186f753d782c6f753d61747469632c64633d6578616d706c6530253023040b6f626a656374436c617373311404126f7267616e697a6174696f6e616c556e6974"
DELETES_BESIDE = "301d0201084a186f753d782c6f753d61747469632c64633d6578616d706c65"
ADDS_OPENLY = "303d0201096838040f6f753d782c64633d6578616d706c6530253023040b6f626a656374436c617373311404126f7267616e697a6174696f6e616c556e6974"

# What a reader sends: a bind, reads, and an unbind.
BOB_BINDS = "302c0201016027020103041c7569643d626f622c6f753d70656f706c652c64633d6578616d706c658004626f6231"
SEARCHES_ALL = "3034020101632f040a64633d6578616d706c650a01020a0100020100020100010100870b6f626a656374436c61737330050403312e31"
SEARCHES_HIDDEN = "303e020102633904146f753d7365637265742c64633d6578616d706c650a01020a0100020100020100010100870b6f626a656374436c61737330050403312e31"
COMPARES_HIDDEN = "30290201036e2404146f753d7365637265742c64633d6578616d706c65300c04026f750406736563726574"
UNBINDS = "300502010a4200"

# What it may not send: changes, which are refused here, and binds with a name at or below that of the subtree.
ADDS = "3047020104684204196f753d792c6f753d70656f706c652c64633d6578616d706c6530253023040b6f626a656374436c617373311404126f7267616e697a6174696f6e616c556e6974"
DELETES = "30160201054a116f753d6c61622c64633d6578616d706c65"
MODIFIES = "3036020106663104146f753d70656f706c652c64633d6578616d706c65301930170a01023012040b6465736372697074696f6e3103040178"
RENAMES = "30240201076c1f04116f753d6c61622c64633d6578616d706c6504076f753d6c6162730101ff"
BINDS_AT = "3021020108601c02010304146f753d7365637265742c64633d6578616d706c65800178"
BINDS_BELOW = "3032020109602d02010304257569643d6576652c6f753d7661756c742c6f753d7365637265742c64633d6578616d706c65800178"

# Two connections, the first of which is the administrator's.
TWO = f"open 1\nopen 2\nsend 1 {ADA_BINDS}\n"

HIDDEN = "ou=secret,dc=example"

# An extended request of more octets than one piece has.
LONG = "3083011186020101778301117e8003312e328183011174" + "00" * 70004

# Scripts over the organisation, with the number of a connection and the name of a subtree, what is put, and what that shows.
AUDITS = [
    # nothing breaks the hush
    (TWO + f"send 1 {ADDS_HIDDEN}\nsend 2 {SEARCHES_HIDDEN}\n", "2", HIDDEN, "hush yes\nsame\n", "an add in the hidden part"),
    (
        TWO + f"send 1 {DELETES_HIDDEN}\nsend 1 {CHANGES_HIDDEN}\nsend 1 {RENAMES_HIDDEN}\nsend 2 {SEARCHES_ALL}\n",
        "2",
        HIDDEN,
        "hush yes\nsame\n",
        "a delete, a change and a rename in the hidden part",
    ),
    (
        TWO + f"send 2 {BOB_BINDS}\nsend 1 {ADDS_HIDDEN}\nsend 2 {SEARCHES_ALL}{COMPARES_HIDDEN}\n",
        "2",
        HIDDEN,
        "hush yes\nsame\n",
        "a person who is no administrator",
    ),
    (
        TWO + f"send 2 {SEARCHES_ALL[:20]}\nsend 1 {ADDS_HIDDEN}\nsend 2 {SEARCHES_ALL[20:]}\n",
        "2",
        HIDDEN,
        "hush yes\nsame\n",
        "a search that is cut in two, and an add between",
    ),
    (TWO + f"send 1 {ADDS_BESIDE}\n", "3", HIDDEN, "hush yes\nsame\n", "a connection that never opens"),
    (
        TWO + f"send 2 {SEARCHES_ALL}{UNBINDS}\nsend 1 {ADDS_BESIDE}\n",
        "2",
        HIDDEN,
        "hush yes\nsame\n",
        "an add beside after the connection has unbound",
    ),
    (
        f"open 1\nsend 1 {ADA_BINDS}\nsend 1 {ADDS_BESIDE}\nsend 1 {DELETES_BESIDE}\nopen 2\nsend 2 {SEARCHES_ALL}\n",
        "2",
        HIDDEN,
        "hush yes\nsame\n",
        "an add beside and its delete before the connection opens",
    ),
    (TWO + f"send 1 {ADDS_HIDDEN}\nsend 2 {SEARCHES_HIDDEN}\n", "0000000002", HIDDEN, "hush yes\nsame\n", "zeros before a number"),
    (TWO, "4294967295", HIDDEN, "hush yes\nsame\n", "the greatest number"),
    (TWO + f"send 2 {SEARCHES_ALL}\n", "2", "OU=Secret, DC=EXAMPLE", "hush yes\nsame\n", "another spelling of the name"),
    (TWO + f"send 1 {ADDS_BESIDE}\n", "2", "ou=attic,dc=example", "hush yes\nsame\n", "another hidden part"),
    # 0: the name isn't below the suffix
    (TWO, "2", "dc=example", "hush no at 0: part 0\nsame\n", "the suffix"),
    (TWO, "2", "dc=other", "hush no at 0: part 0\nsame\n", "a name beside the suffix"),
    (TWO + f"send 1 {ADDS_OPENLY}\nsend 2 {SEARCHES_ALL}\n", "2", "ou=secret,dc=other", "hush no at 0: part 0\ndiffers at 307\n", "a name below another suffix"),
    # 1: what stands outside
    (TWO + f"send 1 {ADDS_HIDDEN}\nsend 2 {SEARCHES_HIDDEN}\n", "2", "ou=attic,dc=example", "hush no at 4: part 1\nsame\n", "an add outside"),
    (TWO + f"send 1 {ADDS_BESIDE}\nsend 2 {SEARCHES_ALL}\n", "2", HIDDEN, "hush no at 4: part 1\nsame\n", "an add beside"),
    (
        TWO + f"send 2 {SEARCHES_ALL}\nsend 1 {ADDS_BESIDE}{DELETES_BESIDE}\n",
        "2",
        HIDDEN,
        "hush no at 5: part 1\nsame\n",
        "an add beside and its delete in one piece",
    ),
    (
        f"open 1\nsend 1 {ADA_BINDS}\nsend 1 {ADDS_BESIDE}\nopen 2\nsend 2 {SEARCHES_ALL}\n",
        "2",
        HIDDEN,
        "hush no at 4: part 1\nsame\n",
        "an add beside before the connection opens",
    ),
    (
        TWO + f"send 1 {CHANGES_HIDDEN}\n",
        "2",
        "ou=vault,ou=secret,dc=example",
        "hush no at 4: part 1\nsame\n",
        "a change of the entry above",
    ),
    # 2: an entry at or below the name governs
    (TWO, "2", "ou=lab,dc=example", "hush no at 2: part 2\nsame\n", "an inner area, which is seen too"),
    (TWO, "2", "cn=lab,ou=lab,dc=example", "hush no at 2: part 2\nsame\n", "a subentry"),
    # 3: an entry at or below the name is shown
    (TWO + f"send 1 {ADDS_HIDDEN}\n", "1", HIDDEN, "hush no at 3: part 3\nsame\n", "an administrator, from the bind on"),
    (TWO, "2", "ou=people,dc=example", "hush no at 2: part 3\nsame\n", "what all may see"),
    (TWO, "2", "ou=x,dc=example", "hush yes\nsame\n", "a name that no entry has"),
    (
        TWO + f"send 2 {SEARCHES_ALL}\nsend 1 {ADDS_OPENLY}\nsend 2 {SEARCHES_ALL}\n",
        "2",
        "ou=x,dc=example",
        "hush no at 5: part 3\ndiffers at 627\n",
        "an entry that all may see, added at the name",
    ),
    # 5: the connection asks for a change
    (TWO + f"send 2 {ADDS}\n", "2", HIDDEN, "hush no at 4: part 5\nsame\n", "an own add"),
    (TWO + f"send 2 {DELETES}\n", "2", HIDDEN, "hush no at 4: part 5\nsame\n", "an own delete"),
    (TWO + f"send 2 {MODIFIES}\n", "2", HIDDEN, "hush no at 4: part 5\nsame\n", "an own modify"),
    (TWO + f"send 2 {RENAMES}\n", "2", HIDDEN, "hush no at 4: part 5\nsame\n", "an own rename"),
    (TWO + f"send 2 {SEARCHES_ALL}{DELETES}{BINDS_AT}\n", "2", HIDDEN, "hush no at 4: part 5\nsame\n", "a delete within a piece"),
    (
        TWO + f"send 2 {DELETES[:10]}\nsend 1 {ADDS_HIDDEN}\nsend 2 {DELETES[10:]}\n",
        "2",
        HIDDEN,
        "hush no at 6: part 5\nsame\n",
        "a delete that is cut in two",
    ),
    (
        TWO + f"send 1 {ADDS_BESIDE}\nsend 2 {DELETES}\n",
        "2",
        HIDDEN,
        "hush no at 4: part 1\nsame\n",
        "the first place, whatever its part",
    ),
    (
        f"open 1\nsend 1 {ADA_BINDS[:40]}\nopen 2\nsend 1 {ADA_BINDS[40:]}{ADDS_BESIDE}\n",
        "2",
        "ou=attic,dc=example",
        "hush yes\nsame\n",
        "an add in the subtree, behind a bind that is cut in two",
    ),
    # 6: the connection binds with a name at or below
    (TWO + f"send 2 {BINDS_AT}\n", "2", HIDDEN, "hush no at 4: part 6\nsame\n", "a bind at the name"),
    (TWO + f"send 2 {BINDS_BELOW}\n", "2", HIDDEN, "hush no at 4: part 6\nsame\n", "a bind below it"),
    (TWO + f"send 2 {BINDS_AT}{DELETES}\n", "2", HIDDEN, "hush no at 4: part 6\nsame\n", "a bind before a delete in one piece"),
    # long octets come in pieces, each of which is an event
    (TWO + f"send 1 {LONG}\nsend 2 {DELETES}\n", "2", HIDDEN, "hush no at 6: part 5\nsame\n", "a piece that is cut for its length"),
]

# Items outside that name a group at or below a name, in place of one elsewhere.
GROUPS = [
    ("cn=staff,ou=secret,dc=example", HIDDEN, "hush no at 2: part 4\nsame\n", "a group below the name"),
    ("ou=secret,dc=example", HIDDEN, "hush no at 2: part 4\nsame\n", "the name itself as a group"),
    ("cn=staff,ou=secret,dc=example", "ou=vault,ou=secret,dc=example", "hush yes\nsame\n", "a group beside the name"),
]

# Words that ask for no audit, and those that ask for one of files that aren't read or accepted.
WORDS = [
    ([], USAGE, Status.USAGE, "no words"),
    (["d", "s", "1"], USAGE, Status.USAGE, "three words"),
    (["d", "s", "1", "ou=b,dc=u", "x"], USAGE, Status.USAGE, "five words"),
    (["d", "s", "--", "1", "ou=b,dc=u"], USAGE, Status.USAGE, "two hyphens among five words"),
    (["d", "s", "0", "ou=b,dc=u"], USAGE, Status.USAGE, "the number 0"),
    (["d", "s", "4294967296", "ou=b,dc=u"], USAGE, Status.USAGE, "a number past the greatest"),
    (["d", "s", "00000000001", "ou=b,dc=u"], USAGE, Status.USAGE, "eleven digits"),
    (["d", "s", "+1", "ou=b,dc=u"], USAGE, Status.USAGE, "a sign"),
    (["d", "s", "", "ou=b,dc=u"], USAGE, Status.USAGE, "no digit"),
    (["d", "s", "1a", "ou=b,dc=u"], USAGE, Status.USAGE, "a letter"),
    (["d", "s", "1", ""], USAGE, Status.USAGE, "the empty name"),
    (["d", "s", "1", "  "], USAGE, Status.USAGE, "a name of spaces alone"),
    (["d", "s", "1", "ou"], USAGE, Status.USAGE, "a name that is none"),
    (["d", "s", "1", "zz=b,dc=u"], USAGE, Status.USAGE, "an unknown type"),
    (["nothing", "s", "x", "ou=b,dc=u"], USAGE, Status.USAGE, "the words before the files"),
    (["--", "s", "1", "ou=b,dc=u"], "data fault\n", Status.SHELF_FAULT, "two hyphens as the name of a file"),
    (["nothing", "s", "1", "ou=b,dc=u"], "data fault\n", Status.SHELF_FAULT, "no data file"),
    (["d", "nothing", "1", "ou=b,dc=u"], "data fault\n", Status.SHELF_FAULT, "no script"),
]


def audited(script, number, top, put, what, data=ORGANISATION):
    """An audit that is made."""
    return Run(["d", "s", number, top], put, what, data=data, script=script, program="leak_audit")


@test
def each_session_is_audited():
    return [audited(*row) for row in AUDITS]


@test
def an_item_outside_names_a_group_within():
    named = "cn=staff,ou=groups,dc=example\" } }, grantsAndDenials"
    return [
        audited(TWO, "2", top, put, what, ORGANISATION.replace(named, named.replace("cn=staff,ou=groups,dc=example", group)))
        for group, top, put, what in GROUPS
    ]


@test
def a_connection_past_the_most_is_turned_away():
    script = "".join(f"open {number}\n" for number in range(1, 258))
    alone = "hush no at 257: part 7\n"
    return [
        audited(script, "257", HIDDEN, alone + "same\n", "nothing was sent"),
        audited(script + f"send 257 {SEARCHES_ALL}\n", "257", HIDDEN, alone + "differs at 0\n", "a search, which alone is answered"),
        audited(script, "256", HIDDEN, "hush yes\nsame\n", "the last for which there is room"),
        audited(script + "end 1\nopen 258\n", "258", HIDDEN, "hush yes\nsame\n", "the next after another ended"),
    ]


@test
def other_words_and_files_that_are_not_read():
    return [Run(line, put, what, status, program="leak_audit") for line, put, status, what in WORDS]


@test
def a_file_that_is_not_accepted_puts_its_first_bad_line():
    line = "d s 1 ou=b,dc=u"
    bad = TWO_ENTRIES.replace("ou:: YQ==", "ou:: YQ")
    return [
        Run(line, "bad data line 7: base64\n", "the data file", Status.BAD_DATA, data=bad, program="leak_audit"),
        Run(line, "bad data line 7: base64\n", "the data file first", Status.BAD_DATA, data=bad, script="x", program="leak_audit"),
        Run(line, "bad script line 2\n", "the script", Status.BAD_SCRIPT, script="open 1\nopen 1\n", program="leak_audit"),
    ]
