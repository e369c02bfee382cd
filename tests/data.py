"""Data files: what is checked, put again and refused."""

from messages import BIND_SCRIPT, BOUND_LINE
from program import Run, Status, test
from trees import ONE_SUBENTRY, ORGANISATION, POINT, TWO_ENTRIES, TWO_SUBENTRIES

# The two entries as the program puts them: a value of the RDN that the file leaves out comes last.
TWO_ENTRIES_PUT = """\
version: 1

dn: dc=u
objectClass: domain
dc: u

dn: ou=b,dc=u
objectClass: organizationalUnit
ou: a
ou: b
"""

# A data file, what its check prints, and what it shows.
TREES = [
    (TWO_ENTRIES, "ok 2 0\n", "two entries"),
    (ONE_SUBENTRY, "ok 3 1\n", "one subentry"),
    (ORGANISATION, "ok 17 4\n", "an organisation"),
    (POINT, "ok 2 1\n", "a point"),
    (TWO_SUBENTRIES, "ok 4 2\n", "two subentries"),
]

# A data file, and what its refusal prints.
BAD_FILES = [
    ("", "bad data line 1: syntax\n"),
    ("# nothing\n\n", "bad data line 1: syntax\n"),
    ("version: 1\n\ndn: dc=t\nchangetype: add\n", "bad data line 4: changetype\n"),
    ("dn: dc=t\nobjectClass\n", "bad data line 2: syntax\n"),
    ("dn: dc=t\ndc:: dA\n", "bad data line 2: base64\n"),
    ("dn: =t\ndc: t\n", "bad data line 1: name\n"),
    ("dn: \ndc: t\n", "bad data line 1: name\n"),
    ("dn: dc=t\nzz: t\n", "bad data line 2: type\n"),
    ("dn: c=nl\nc: Nether\n", "bad data line 2: value\n"),
    ("dn: dc=t\nobjectClass: domain\nobjectClass: DOMAIN\n", "bad data line 3: twice\n"),
    ("dn: dc=t\nobjectClass: domain\n\ndn: DC=T\nobjectClass: domain\n", "bad data line 4: twice\n"),
    (
        "dn: dc=t\n"
        "objectClass: domain\n"
        "\n"
        "dn: ou=a,ou=b,dc=t\n"
        "objectClass: organizationalUnit\n",
        "bad data line 4: order\n",
    ),
    ("dn: dc=t\ndescription: d\n", "bad data line 1: rule 65\n"),
    ("dn: dc=t\nobjectClass: dcObject\n", "bad data line 1: rule 65\n"),
    ("dn: dc=t\nobjectClass: domain\ndc: u\n", "bad data line 1: rule 19\n"),
    ("dn: =t\nchangetype: add\n", "bad data line 2: changetype\n"),
    ("dn: =t\nzz: t\n", "bad data line 1: name\n"),
    ("dn: dc=t\nzz: t\nc: Nether\n", "bad data line 2: type\n"),
    ("dn: dc=t\nobjectClass: domain\n\ndn: dc=T\nc: Nether\n", "bad data line 5: value\n"),
    ("dn: dc=t\nobjectClass: dcObject\ndc: u\n", "bad data line 1: rule 65\n"),
]


# An item that no grammar has.
HALF_AN_ITEM = "dn: dc=u\nobjectClass: domain\nentryACI: { identificationTag \"s\" }\n"

# A person, by its number.
PERSON = """\

dn: uid=p{number:02},ou=people,dc=example
objectClass: inetOrgPerson
uid: p{number:02}
cn: P {number:02}
sn: P
mail: p{number:02}@example.com
telephoneNumber: +1 555 10{number:02}
userPassword: pw{number:02}
"""


def refused(data, put, what):
    """The check of a data file puts this, and refuses the file."""
    return Run("check d", put, what, Status.BAD_DATA, data)


@test
def the_entries_and_the_access_control_subentries_of_a_tree_are_counted():
    return [Run("check d", put, what, data=data) for data, put, what in TREES]


@test
def an_item_of_no_grammar_is_refused():
    return [refused(HALF_AN_ITEM, "bad data line 1: rule 21\n", "half an item")]


@test
def an_ordinary_site_is_loaded():
    people = "".join(PERSON.format(number=number) for number in range(1, 41))
    return [Run("check d", "ok 57 4\n", "forty people more", data=ORGANISATION + people)]


@test
def a_tree_is_put_again_alone_and_after_the_lines_of_a_replay():
    return [
        Run("dump d", TWO_ENTRIES_PUT, "dump"),
        Run("dump d", TWO_ENTRIES_PUT, "what was put", data=TWO_ENTRIES_PUT),
        Run("replay --dump d s", BOUND_LINE + TWO_ENTRIES_PUT, "replay", script=BIND_SCRIPT),
        Run("replay d s --turns 1 --dump", "1 -\n" + TWO_ENTRIES_PUT, "one turn", Status.TURNS_SPENT, script=BIND_SCRIPT),
    ]


@test
def a_file_is_refused_at_its_first_bad_line_for_the_first_cause():
    return [refused(data, put, data) for data, put in BAD_FILES]


@test
def a_data_file_is_refused_before_its_script():
    lines = ["replay s s", "replay s other"]
    return [Run(line, "bad data line 1: syntax\n", status=Status.BAD_DATA, script="nothing\n") for line in lines]


@test
def a_file_of_one_octet_too_many_is_refused_where_it_stands():
    return [refused("\n" * 67_108_865, "bad data line 67108865: limit\n", "line feeds")]
