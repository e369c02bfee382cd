"""Values: which are equal by the rule of their syntax (RFC 4517 4.2, RFC 4518), and octets that are of no syntax."""

from opened import line, opened, told
from program import Run, Status, test

# A record that may have a value of the type, but for its lines.
RECORDS = {
    "description": "dn: cn=x,dc=example\nobjectClass: device\ncn: x\n",
    "mail": "dn: cn=x,dc=example\nobjectClass: inetOrgPerson\ncn: x\nsn: x\n",
    "telephoneNumber": "dn: cn=x,dc=example\nobjectClass: person\ncn: x\nsn: x\n",
    "c": "dn: description=x,dc=example\nobjectClass: country\ndescription: x\n",
    "userPassword": "dn: cn=x,dc=example\nobjectClass: person\ncn: x\nsn: x\n",
    "administrativeRole": "dn: cn=x,dc=example\nobjectClass: device\ncn: x\nadministrativeRole: 2.5.23.3\n",
    "member": "dn: cn=x,dc=example\nobjectClass: groupOfNames\ncn: x\n",
    "seeAlso": "dn: cn=x,dc=example\nobjectClass: device\ncn: x\n",
}

# The codes of a compare: the value is there, it is not, and it is no value of the type.
TRUE, FALSE, NO_VALUE = 6, 5, 21

# A type, a value of it, an asserted value, and the code of the compare. Those of texts are the examples of the Unicode
# Standard 3.13 and of UAX #15.
COMPARED = [
    ("description", "Ada Lovelace", "ada lovelace", TRUE),
    ("description", "  Ada   Lovelace ", "ada lovelace", TRUE),
    ("description", "   ", " ", TRUE),
    ("description", "Straße", "strasse", TRUE),
    ("description", "STRASSE", "Straße", TRUE),
    ("description", "\u1E9E", "ss", TRUE),
    ("description", "ΌΣΟΣ", "όσος", TRUE),
    ("description", "\uFB01n", "fin", TRUE),
    ("description", "\uFF21\uFF44\uFF41", "ada", TRUE),
    ("description", "\u0130", "i\u0307", TRUE),
    ("description", "a\u0301\u0323", "\u1EA1\u0301", TRUE),
    ("description", "a\u0323\u0301", "\u1EA1\u0301", TRUE),
    ("description", "\u00A0A\u3000\u2003B", "a b", TRUE),
    ("description", "x\u00B2", "x2", TRUE),
    ("description", "harbour-7", "Harbour-7", TRUE),
    ("description", "har bour", "harbour", FALSE),
    ("description", "a", "ä", FALSE),
    ("description", "a", "", NO_VALUE),
    ("description", "a", "\udcc0\udc80", NO_VALUE),
    ("description", "a", "\udced\udca0\udc80", NO_VALUE),
    ("description", "a", "a\udcc3", NO_VALUE),
    ("mail", "Ada@Example.COM", "ada@example.com", TRUE),
    ("mail", "a\tB", "A\tb", TRUE),
    ("mail", "~!@[", "~!@[", TRUE),
    ("mail", " a  b", "a b", TRUE),
    ("mail", "a", "", NO_VALUE),
    ("mail", "a", "a\udc80", NO_VALUE),
    ("telephoneNumber", "+1 555-0100 EXT 7", "+15550100ext7", TRUE),
    ("telephoneNumber", "- -", " ", TRUE),
    ("telephoneNumber", "1", "", NO_VALUE),
    ("telephoneNumber", "1", "1\x1f", NO_VALUE),
    ("telephoneNumber", "1", "1\x7f", NO_VALUE),
    ("c", "dE", "De", TRUE),
    ("c", "DE", "", NO_VALUE),
    ("c", "DE", "D", NO_VALUE),
    ("c", "DE", "DEU", NO_VALUE),
    ("c", "DE", "D1", NO_VALUE),
    ("userPassword", " A ", " A ", TRUE),
    ("userPassword", " A ", "A", FALSE),
    ("userPassword", "", "", TRUE),
    ("administrativeRole", "1.2.3", "1.2.3", TRUE),
    ("administrativeRole", "1.2.3", "accessControlInnerArea", TRUE),
    ("administrativeRole", "person", "2.5.6.6", TRUE),
    ("administrativeRole", "1.2.3", "01.2", NO_VALUE),
    ("administrativeRole", "1.2.3", "nonsense", NO_VALUE),
    ("member", "CN=A  B , dc=Example", "cn=a b,dc=example", TRUE),
    ("member", "cn=A\\,  B+uid=x, dc=Example", "UID=X+cn=a\\2c b,dc=example", TRUE),
    ("member", "cn=A\\,  B+uid=x, dc=Example", "cn=a\\, b,dc=example", FALSE),
    ("member", "cn=A\\,  B+uid=x, dc=Example", "cn=a\\, b+uid=x", FALSE),
    ("member", "cn=a", "", FALSE),
    ("member", "cn=a", "cn", NO_VALUE),
    ("member", "cn=a", "cn=a+cn=b", NO_VALUE),
    ("seeAlso", "", "", TRUE),
]

# A type, a part of a filter, a value, and whether it is found.
PARTS = [
    ("description", "  A  b  *", "a b c", True),
    ("description", "  A  b  *", "a bc", False),
    ("description", "  A  b  *", "x a b c", False),
    ("description", "*  A  b  *", "x a b y", True),
    ("description", "*  A  b  *", "xa by", False),
    ("description", "*  A  b  ", "x a b", True),
    ("description", "*  A  b  ", "xa b", False),
    ("description", "*   *", "a b", True),
    ("description", "*   *", "ab", False),
    ("description", "*\uFF21ß ", "xass", True),
    ("description", "A*b", "Ada  B", True),
    ("description", "A*b", "ab", True),
    ("description", "A*b", "b", False),
    ("description", "A*b", "Ada", False),
    ("mail", " A *", "a b", True),
    ("mail", " A *", "ab", False),
    ("telephoneNumber", "* 555-01 *", "+1 5550100", True),
    ("c", "D*", "DE", True),
    ("c", "*DE", "de", True),
    ("c", "*E*", "DE", True),
]

# A type, and a filter by a part that can be none of its values.
NO_PARTS = [
    ("description", "*\\ff*"),
    ("mail", "*\\c3\\a4*"),
    ("telephoneNumber", "*\\09*"),
    ("c", "*DEU*"),
]

# A type, and octets that are no value of it.
OUTSIDE = [
    ("description", ""),
    ("description", "\udcc0\udc80"),
    ("mail", "\u00e9"),
    ("telephoneNumber", "1\x1f"),
    ("c", "D1"),
    ("administrativeRole", "nonsense"),
    ("member", "cn"),
]


def name_of(kind):
    """The name of the record that has a value of the type."""
    return RECORDS[kind].partition("\n")[0].removeprefix("dn: ")


def data_of(kind, value):
    """The data file with a value of the type."""
    return opened(RECORDS[kind] + line(kind, value))


def refused(data, cause, what):
    """The check of a data file that is refused at its last line."""
    lines = data.count("\n")
    return Run("check d", f"bad data line {lines}: {cause}\n", what, Status.BAD_DATA, data)


def search_of(kind, words):
    """The request that asks for the record by a filter."""
    return f"dn: {name_of(kind)}\ndo: search\n{line('filter', words)}select: 1.1\n"


@test
def values_are_equal_by_the_rule_of_their_syntax():
    return [
        Run("ask d s", f"# 1 {code}\n", f"{kind} {value!r} {other!r}", data=data_of(kind, value),
            script=f"dn: {name_of(kind)}\ndo: compare\n{line(kind, other)}")
        for kind, value, other, code in COMPARED
    ]


@test
def a_value_that_is_equal_to_another_stands_twice():
    return [
        refused(data_of(kind, value) + line(kind, other), "twice", f"{kind} {value!r} {other!r}")
        for kind, value, other, code in COMPARED if code == TRUE and value != "1.2.3"
    ]


@test
def a_part_is_cut_only_at_an_end_of_the_value():
    return [
        Run("ask d s", told(name_of(kind), is_found) + "# 1 0\n", f"{kind} {words!r} {value!r}", data=data_of(kind, value),
            script=search_of(kind, f"({kind}={words})"))
        for kind, words, value, is_found in PARTS
    ]


@test
def a_part_that_no_value_has_is_found_neither_so_nor_by_its_not():
    values = {"description": "a", "mail": "a", "telephoneNumber": "1", "c": "DE"}
    return [
        Run("ask d s", "# 1 0\n# 2 0\n", f"{kind} {words}", data=data_of(kind, values[kind]),
            script=search_of(kind, f"({kind}={words})") + "\n" + search_of(kind, f"(!({kind}={words}))"))
        for kind, words in NO_PARTS
    ]


@test
def octets_outside_the_syntax_are_no_value():
    return [refused(data_of(kind, value), "value", f"{kind} {value!r}") for kind, value in OUTSIDE]
