"""Filters in octets and in words (RFC 4511 4.5.1.7, RFC 4515, RFC 4526), and what they are of entries."""

from messages import NOTICE_LINE
from opened import element, opened, sent, text
from program import Run, test

BABS = """\
dn: cn=Babs Jensen,dc=example
objectClass: inetOrgPerson
cn: Babs Jensen
cn: Barbara Jensen
sn: Jensen
o: University of Michigan
o: Parens R Us (for all your parenthetical needs)
"""

TIM = """\
dn: cn=Tim Howes,dc=example
objectClass: inetOrgPerson
cn: Tim Howes
cn: Tim * Howes
sn:: THXEjWnEhw==
"""

# The examples of RFC 4515 section 4 and of RFC 4526: a filter in words, but for an extensible one, in octets, and who is
# found by it, of Babs and of Tim.
EXAMPLES = [
    ("(cn=Babs Jensen)", "a3110402636e040b42616273204a656e73656e", "B"),
    ("(!(cn=Tim Howes))", "a211a30f0402636e040954696d20486f776573", "B"),
    (
        "(&(objectClass=Person)(|(sn=Jensen)(cn=Babs J*)))",
        "a037a315040b6f626a656374436c6173730406506572736f6ea11ea30c0402736e04064a656e73656ea40e0402636e3008800642616273204a",
        "B",
    ),
    ("(o=univ*of*mich*)", "a41504016f30108004756e697681026f6681046d696368", "B"),
    ("(seeAlso=)", "a30b0407736565416c736f0400", ""),
    (None, "a9258202636e810e6361736545786163744d61746368830f4672656420466c696e7473746f6e65", ""),
    (
        "(o=Parens R Us \\28for all your parenthetical needs\\29)",
        "a33304016f042e506172656e7320522055732028666f7220616c6c20796f757220706172656e746865746963616c206e6565647329",
        "B",
    ),
    ("(cn=*\\2A*)", "a4090402636e300381012a", "T"),
    ("(filename=C:\\5cMyFile)", "a315040866696c656e616d650409433a5c4d7946696c65", ""),
    ("(bin=\\00\\00\\00\\04)", "a30b040362696e040400000004", ""),
    ("(sn=Lu\\c4\\8di\\c4\\87)", "a30d0402736e04074c75c48d69c487", "T"),
    ("(1.3.6.1.4.1.1466.0=\\04\\02\\48\\69)", "a31a0412312e332e362e312e342e312e313436362e30040404024869", ""),
    ("(&(objectClass=*)(|))", "a00f870b6f626a656374436c617373a100", ""),
    ("(&(cn=*)(&))", "a0068702636ea000", "BT"),
]

# Elements that are no filter, and what that shows.
NO_FILTERS = [
    ("a40504016f3000", "substrings without a part"),
    ("a40b04016f3006800161800162", "two initial parts"),
    ("a40b04016f3006810161800162", "an initial part behind another"),
    ("a40b04016f3006820161820162", "two final parts"),
    ("a200", "a not of nothing"),
    ("a206870161870162", "a not of two filters"),
    ("a303040161", "an equality without a value"),
    ("a70161", "another tag for presence"),
    ("aa00", "a tag past the last"),
    ("a003870561", "a member longer than its and"),
]


def search(base, filter_octets):
    """A search of all at and below a base for the names alone."""
    return element("63", text("04", base), "0a01020a0100020100020100010100", filter_octets, element("30", text("04", "1.1")))


def found(names):
    """The line of a replay in which these entries are found."""
    entries = [element("30", "020101", element("64", text("04", f"cn={name},dc=example"), "3000")) for name in names]
    return "1 " + "".join(entries) + "300c02010165070a010004000400\n"


NAMES = {"B": "Babs Jensen", "T": "Tim Howes"}


@test
def filters_are_read_and_find_their_entries():
    runs = []
    for _words, octets, who in EXAMPLES:
        below = element("a0", octets, "a315040b6f626a656374436c6173730406506572736f6e")
        script = sent(element("30", "020101", search("dc=example", below)))
        runs.append(Run("replay d s", found([NAMES[one] for one in who]), octets, data=opened(BABS, TIM), script=script))
    return runs


@test
def filters_are_written_as_they_are_read():
    runs = []
    for words, octets, _who in EXAMPLES:
        if words:
            message = element("30", "020101", search("dc=u", octets))
            asks = f"dn: dc=u\ndo: search\nscope: sub\nfilter: {words}\nselect: 1.1\n"
            runs.append(Run("ask d s --script", sent(message), words, script=asks))
    return runs


@test
def other_elements_are_no_filter():
    return [
        Run("replay d s", NOTICE_LINE, what, script=sent(element("30", "020101", search("dc=u", octets))))
        for octets, what in NO_FILTERS
    ]
