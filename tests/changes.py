"""Entries and their tree as they are changed: what each value, each type and each name leaves (RFC 4511 4.6 to 4.9)."""

from opened import opened
from program import Run, test

ANN = """\
dn: cn=Ann,dc=example
objectClass: inetOrgPerson
cn: Ann
sn: Lee
cn: Anna
"""

NAME = "dn: cn=Ann,dc=example\n"

# Changes of Ann, the code, and her lines then, which stand in the order in which types and values came.
CHANGES = [
    ("add: cn\nvalue: Annie\n", 0, "objectClass: inetOrgPerson\ncn: Ann\ncn: Anna\ncn: Annie\nsn: Lee\n"),
    ("add: cn\nvalue:: IEFOTiA=\n", 20, "objectClass: inetOrgPerson\ncn: Ann\ncn: Anna\nsn: Lee\n"),
    ("add: cn\nvalue: anna\n", 20, "objectClass: inetOrgPerson\ncn: Ann\ncn: Anna\nsn: Lee\n"),
    ("add: sn\nvalue: Ann\n", 0, "objectClass: inetOrgPerson\ncn: Ann\ncn: Anna\nsn: Lee\nsn: Ann\n"),
    ("add: uid\nvalue: ann\n", 0, "objectClass: inetOrgPerson\ncn: Ann\ncn: Anna\nsn: Lee\nuid: ann\n"),
    ("add: objectClass\nvalue: 2.16.840.1.113730.3.2.2\n", 20, "objectClass: inetOrgPerson\ncn: Ann\ncn: Anna\nsn: Lee\n"),
    ("delete: cn\nvalue: ANNA\n", 0, "objectClass: inetOrgPerson\ncn: Ann\nsn: Lee\n"),
    ("delete: cn\nvalue: Lee\n", 16, "objectClass: inetOrgPerson\ncn: Ann\ncn: Anna\nsn: Lee\n"),
    ("delete: cn\nvalue: ann\n", 67, "objectClass: inetOrgPerson\ncn: Ann\ncn: Anna\nsn: Lee\n"),
    ("delete: sn\nvalue: lee\n", 65, "objectClass: inetOrgPerson\ncn: Ann\ncn: Anna\nsn: Lee\n"),
    ("delete: mail\nvalue: lee\n", 16, "objectClass: inetOrgPerson\ncn: Ann\ncn: Anna\nsn: Lee\n"),
    ("delete: mail\n", 16, "objectClass: inetOrgPerson\ncn: Ann\ncn: Anna\nsn: Lee\n"),
    ("replace: cn\nvalue: Annie\nvalue: Ann\n", 0, "objectClass: inetOrgPerson\ncn: Annie\ncn: Ann\nsn: Lee\n"),
    ("replace: uid\nvalue: ann\n", 0, "objectClass: inetOrgPerson\ncn: Ann\ncn: Anna\nsn: Lee\nuid: ann\n"),
    ("replace: sn\nvalue: Lea\nadd: sn\nvalue: Lee\n", 0, "objectClass: inetOrgPerson\ncn: Ann\ncn: Anna\nsn: Lea\nsn: Lee\n"),
    ("replace: mail\n", 0, "objectClass: inetOrgPerson\ncn: Ann\ncn: Anna\nsn: Lee\n"),
    ("delete: cn\nadd: cn\nvalue: Ann\n", 0, "objectClass: inetOrgPerson\nsn: Lee\ncn: Ann\n"),
    ("delete: sn\nadd: uid\nvalue: a\nadd: sn\nvalue: B\n", 0, "objectClass: inetOrgPerson\ncn: Ann\ncn: Anna\nuid: a\nsn: B\n"),
]

# The texts of many values, of which later ones come before and behind earlier ones in the order of keys.
MANY = [f"person {number % 101 * 37 % 101}" for number in range(100)]

UNIT = "objectClass: organizationalUnit\n"

# A tree in the order of names.
TREE = [
    "dn: ou=groups,dc=example\n" + UNIT + "ou: groups\n",
    "dn: cn=staff,ou=groups,dc=example\nobjectClass: device\ncn: staff\n",
    "dn: ou=lab,dc=example\n" + UNIT + "ou: lab\n",
    "dn: ou=people,dc=example\n" + UNIT + "ou: people\n",
    "dn: uid=ada,ou=people,dc=example\nobjectClass: account\nuid: ada\n",
    "dn: cn=key,uid=ada,ou=people,dc=example\nobjectClass: device\ncn: key\n",
    "dn: uid=bob,ou=people,dc=example\nobjectClass: account\nuid: bob\n",
]

# A base, a scope, and the names that are found, in their order.
SCOPES = [
    ("dc=example", "base", ["dc=example"]),
    ("dc=example", "one", ["ou=groups,dc=example", "ou=lab,dc=example", "ou=people,dc=example"]),
    (
        "ou=people,dc=example",
        "sub",
        [
            "ou=people,dc=example",
            "uid=ada,ou=people,dc=example",
            "cn=key,uid=ada,ou=people,dc=example",
            "uid=bob,ou=people,dc=example",
        ],
    ),
    ("OU=People,DC=Example", "one", ["uid=ada,ou=people,dc=example", "uid=bob,ou=people,dc=example"]),
    ("ou=lab,dc=example", "sub", ["ou=lab,dc=example"]),
    ("ou=lab,dc=example", "one", []),
    ("UID=Ada,ou=people,dc=example", "base", ["uid=ada,ou=people,dc=example"]),
]

# A base that no entry has, and the code and the name above it that are told.
ABSENT = [
    ("uid=eve,ou=people,dc=example", "32 ou=people,dc=example"),
    ("cn=a,ou=none,ou=lab,dc=example", "32 ou=lab,dc=example"),
    ("dc=org", "32"),
    ("dc=example,dc=org", "32"),
]

# A name that is put in, and the code.
ADDED = [
    ("dc=example", "68"),
    ("OU=LAB,dc=example", "68"),
    ("ou=x,ou=none,dc=example", "32 dc=example"),
    ("ou=x", "32"),
    ("ou=x,ou=lab,dc=example", "0"),
]

# A name that is taken out twice, and the codes.
REMOVED = [
    ("dc=example", "53", "53"),
    ("ou=groups,dc=example", "66", "66"),
    ("ou=lab,dc=example", "0", "32 dc=example"),
    ("cn=key,uid=ada,ou=people,dc=example", "0", "32 uid=ada,ou=people,dc=example"),
]

# A name, a new RDN and a new superior, the code, and the name that its entry has then.
RENAMED = [
    ("ou=lab,dc=example", "ou=lab", "ou=people,dc=example", "0", "ou=lab,ou=people,dc=example"),
    ("uid=bob,ou=people,dc=example", "uid=bob", "ou=lab,dc=example", "0", "uid=bob,ou=lab,dc=example"),
    ("ou=lab,dc=example", "OU=Lab", "", "0", "ou=Lab,dc=example"),
    ("ou=lab,dc=example", "ou=zoo", "", "0", "ou=zoo,dc=example"),
    ("ou=lab,dc=example", "ou=aaa", "", "0", "ou=aaa,dc=example"),
    ("ou=people,dc=example", "OU=PEOPLE", "", "66", "ou=people,dc=example"),
    ("ou=lab,dc=example", "ou=people", "", "68", "ou=lab,dc=example"),
    ("ou=people,dc=example", "ou=lab", "", "66", "ou=people,dc=example"),
    ("ou=people,dc=example", "ou=folk", "", "66", "ou=people,dc=example"),
    ("ou=lab,dc=example", "ou=lab", "ou=none,dc=example", "32 dc=example", "ou=lab,dc=example"),
    ("ou=lab,dc=example", "ou=lab", "ou=lab,dc=example", "53", "ou=lab,dc=example"),
    ("dc=example", "dc=other", "", "53", "dc=example"),
]


def asked(name):
    """A search of the entry of a name, for its name alone."""
    return f"\ndn: {name}\ndo: search\nselect: 1.1\n"


@test
def values_and_types_stand_in_the_order_in_which_they_came():
    return [
        Run("ask d s", f"# 1 {code}\n\n{NAME}{lines}# 2 0\n", changes, data=opened(ANN),
            script=f"{NAME}do: modify\n{changes}\n{NAME}do: search\n")
        for changes, code, lines in CHANGES
    ]


@test
def of_many_values_each_is_found_and_goes_by_its_key():
    added = NAME + "do: modify\nadd: cn\n" + "".join(f"value: {value}\n" for value in MANY)
    again = "".join(f"\n{NAME}do: modify\nadd: cn\nvalue: {value.upper()}\n" for value in MANY)
    dropped = "\n" + NAME + "do: modify\ndelete: cn\n" + "".join(f"value: {value}\n" for value in MANY[::3])
    compared = "".join(f"\n{NAME}do: compare\ncn: {value}\n" for value in [*MANY, "person"])
    whole = f"\n{NAME}do: search\nselect: cn\n"
    codes = ["0", *["20"] * 100, "0"]
    codes += ["6" if place % 3 else "5" for place in range(100)] + ["5"]
    put = "".join(f"# {number} {code}\n" for number, code in enumerate(codes, 1))
    left = "".join(f"cn: {value}\n" for place, value in enumerate(MANY) if place % 3)
    put += f"\n{NAME}cn: Ann\ncn: Anna\n{left}# {len(codes) + 1} 0\n"
    return [Run("ask d s", put, "a hundred values", data=opened(ANN), script=added + again + dropped + compared + whole)]


@test
def a_scope_takes_in_what_is_in_it_in_the_order_of_names():
    return [
        Run("ask d s", "".join(f"\ndn: {name}\n" for name in names) + "# 1 0\n", f"{base} {scope}", data=opened(*TREE),
            script=f"dn: {base}\ndo: search\nscope: {scope}\nselect: 1.1\n")
        for base, scope, names in SCOPES
    ]


@test
def what_no_entry_has_is_not_found():
    return [
        Run("ask d s", "".join(f"# {number} {told}\n" for number in (1, 2, 3)), base, data=opened(*TREE),
            script="\n".join(f"dn: {base}\ndo: search\nscope: {scope}\n" for scope in ("base", "one", "sub")))
        for base, told in ABSENT
    ]


@test
def an_entry_comes_in_under_its_superior_and_under_no_name_twice():
    return [
        Run("ask d s", f"# 1 {told}\n", name, data=opened(*TREE), script=f"dn: {name}\ndo: add\n{UNIT}")
        for name, told in ADDED
    ]


@test
def an_entry_goes_out_unless_one_stands_below_and_comes_in_again():
    runs = []
    for name, first, second in REMOVED:
        lines = next((record for record in opened(*TREE).split("\n\n") if record.startswith(f"dn: {name}\n")), "")
        again = lines.partition("\n")[2].rstrip("\n") + "\n"
        script = f"dn: {name}\ndo: delete\n\ndn: {name}\ndo: delete\n\ndn: {name}\ndo: add\n{again}{asked(name)}"
        put = f"# 1 {first}\n# 2 {second}\n# 3 {'0' if first == '0' else '68'}\n\ndn: {name}\n# 4 0\n"
        runs.append(Run("ask d s", put, name, data=opened(*TREE), script=script))
    return runs


@test
def an_entry_takes_a_place_that_is_its_own():
    runs = []
    for name, rdn, superior, code, new in RENAMED:
        script = f"dn: {name}\ndo: rename\nnewrdn: {rdn}\n" + (f"newsuperior: {superior}\n" if superior else "") + asked(new)
        put = f"# 1 {code}\n\ndn: {new}\n# 2 0\n"
        runs.append(Run("ask d s", put, f"{name} {rdn} {superior}", data=opened(*TREE), script=script))
    return runs
