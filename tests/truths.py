"""What a filter is of an entry: True, False or Undefined (RFC 4511 4.5.1.7), told by a search for it and one for its not."""

from opened import opened, told
from program import Run, test

BABS = "cn=Babs Jensen,dc=example"

# A person, a country and a group, who have values of each syntax.
ENTRIES = [
    """\
dn: cn=Babs Jensen,dc=example
objectClass: inetOrgPerson
cn: Babs Jensen
cn: Barbara Jensen
sn: Jensen
""",
    """\
dn: cn=Ann  Lee,dc=example
objectClass: inetOrgPerson
cn: Ann  Lee
sn: Lee
mail: Ann@Example.com
telephoneNumber: +1 555-0100
userPassword: Secret
administrativeRole: accessControlInnerArea
""",
    "dn: cn=Joe,dc=example\nobjectClass: organizationalPerson\ncn: Joe\nsn: Lee\n",
    "dn: c=US,dc=example\nobjectClass: country\nc: US\n",
    "dn: cn=g,dc=example\nobjectClass: groupOfNames\ncn: g\nmember: cn=Bob,dc=Example\n",
]

# Of Babs an item that is True, one that is False, and one that is Undefined.
YES, NO, UNKNOWN = "(cn=*)", "(mail=*)", "(shoeSize=*)"

# A filter, and what it is of Babs.
THREE_VALUES = [
    (f"(!{YES})", False),
    (f"(!{NO})", True),
    (f"(!{UNKNOWN})", None),
    (f"(!(!{UNKNOWN}))", None),
    ("(&)", True),
    ("(|)", False),
    (f"(&{YES}{YES})", True),
    (f"(&{YES}{NO})", False),
    (f"(&{YES}{UNKNOWN})", None),
    (f"(&{NO}{UNKNOWN})", False),
    (f"(&{UNKNOWN}{NO})", False),
    (f"(&{UNKNOWN}{UNKNOWN})", None),
    (f"(|{NO}{NO})", False),
    (f"(|{NO}{YES})", True),
    (f"(|{YES}{UNKNOWN})", True),
    (f"(|{UNKNOWN}{YES})", True),
    (f"(|{NO}{UNKNOWN})", None),
    (f"(|{UNKNOWN}{UNKNOWN})", None),
    (f"(|(&{NO}{YES})(&(|{YES}{UNKNOWN}){YES}))", True),
    ("(cn~=Babs Jensen)", None),
]

ANN, JOE, US, GROUP = "cn=Ann  Lee,dc=example", "cn=Joe,dc=example", "c=US,dc=example", "cn=g,dc=example"

# A name, a filter, and what that is of its entry.
SYNTAXES = [
    (ANN, "(|(commonName=ann lee)(cn= ann LEE))", True),
    (ANN, "(cn=AnnLee)", False),
    (ANN, "(cn=)", None),
    (ANN, "(cn=ANN *lee)", True),
    (ANN, "(cn=ann le*lee)", False),
    (ANN, "(cn>=Ann)", True),
    (ANN, "(cn<=Ann)", False),
    (ANN, "(&(cn<=ANN LEE)(cn>=ann lee))", True),
    (ANN, "(mail=ann@example.COM)", True),
    (ANN, "(mail=\\c3\\a4nn@example.com)", None),
    (ANN, "(mail=*\\c3\\a4*)", None),
    (ANN, "(2.5.4.20=+15550100)", True),
    (ANN, "(telephoneNumber=*5 5-5 01*)", True),
    (ANN, "(userPassword=Secret)", True),
    (ANN, "(userPassword=secret)", False),
    (ANN, "(userPassword>=A)", None),
    (ANN, "(userPassword=S*)", None),
    (ANN, "(administrativeRole=2.5.23.3)", True),
    (ANN, "(administrativeRole=1.2.3)", False),
    (ANN, "(administrativeRole=no such role)", None),
    (ANN, "(entryACI>={ })", None),
    (US, "(c=us)", True),
    (US, "(c=USA)", None),
    (US, "(c=u*)", True),
    (GROUP, "(member=CN = bob , dc=example)", True),
    (GROUP, "(member=cn=bob)", False),
    (GROUP, "(member=bob)", None),
    (GROUP, "(member<=cn=bob)", None),
    (GROUP, "(member=cn*)", None),
    (JOE, "(objectClass=organizationalPerson)", True),
    (JOE, "(objectClass=PERSON)", True),
    (JOE, "(objectClass=2.5.6.0)", True),
    (JOE, "(objectClass=inetOrgPerson)", False),
    (JOE, "(objectClass=device)", False),
    (JOE, "(objectClass=1.2.3)", False),
    (JOE, "(objectClass=no such class)", None),
    (JOE, "(objectClass>=person)", None),
]

# Parts of a text, first to last, and whether they stand so in "aba".
ORDERED = [
    ("*ab*ba*", False),
    ("*ab*ba", False),
    ("ab*ba", False),
    ("*ab*a*", True),
    ("a*b*a*", True),
    ("a*a*b*", False),
    ("aba*", True),
    ("*aba", True),
]

ABA = "dn: cn=aba,dc=example\nobjectClass: device\ncn: aba\n"

# A subentry that denies that something of Babs is matched.
DENIAL = """\
dn: cn=1,dc=example
objectClass: subentry
objectClass: accessControlSubentry
cn: 1
subtreeSpecification: {{ }}
prescriptiveACI: {{ identificationTag "no", precedence 9, authenticationLevel none, itemOrUserFirst userFirst: {{
  userClasses {{ allUsers }}, userPermissions {{ {{ protectedItems {{ {items} }}, grantsAndDenials {{ denyFilterMatch
  }} }} }} }} }}
"""

# What may not be matched, a filter, and what it is of Babs.
DENIED = [
    ("attributeType { cn }", "(cn=Babs Jensen)", None),
    ("attributeType { cn }", "(cn=Ann)", None),
    ("attributeType { cn }", "(!(cn=Ann))", None),
    ("attributeType { cn }", "(cn=*)", None),
    ("attributeType { cn }", "(sn=Jensen)", True),
    ("attributeType { mail }", "(mail=*)", None),
    ('attributeValue { { type cn, value "Babs Jensen" } }', "(cn=Babs Jensen)", False),
    ('attributeValue { { type cn, value "Babs Jensen" } }', "(!(cn=Babs Jensen))", True),
    ('attributeValue { { type cn, value "Babs Jensen" } }', "(cn=Barbara Jensen)", True),
    ('attributeValue { { type cn, value "Babs Jensen" } }', "(cn=*jens*)", True),
    ('attributeValue { { type cn, value "Babs Jensen" } }', "(cn=babs*)", False),
    ('attributeValue { { type cn, value "Babs Jensen" } }', "(cn=*)", True),
    ('attributeValue { { type sn, value "Jensen" } }', "(sn=Jensen)", False),
    ('attributeValue { { type sn, value "Jensen" } }', "(sn=*)", True),
]


def judged(name, words, truth, data):
    """The run that asks for the filter and for its not of one entry."""
    asks = "\n".join(f"dn: {name}\ndo: search\nfilter: {asked}\nselect: 1.1\n" for asked in (words, f"(!{words})"))
    put = told(name, truth) + "# 1 0\n" + told(name, truth is False) + "# 2 0\n"
    return Run("ask d s", put, words, data=data, script=asks)


@test
def and_or_and_not_have_three_values():
    return [judged(BABS, words, truth, opened(*ENTRIES)) for words, truth in THREE_VALUES]


@test
def each_syntax_matches_by_its_rule():
    return [judged(name, words, truth, opened(*ENTRIES)) for name, words, truth in SYNTAXES]


@test
def parts_stand_in_order_and_do_not_overlap():
    return [judged("cn=aba,dc=example", f"(cn={parts})", truth, opened(ABA)) for parts, truth in ORDERED]


@test
def what_may_not_be_matched_is_undefined_or_does_not_match():
    return [judged(BABS, words, truth, opened(DENIAL.format(items=items), *ENTRIES)) for items, words, truth in DENIED]
