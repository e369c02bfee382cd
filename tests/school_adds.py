"""Adds to a school's entries (RFC 4511 4.7)."""

from program import test
from school import ANN, ANYONE, BEN, SCHOOL
from steps import add, steps, with_before

PERSON = "objectClass: inetOrgPerson\ncn: N\nsn: N\n"
DEVICE = "objectClass: device\n"
SUBENTRY = "objectClass: subentry\nsubtreeSpecification: { }\n"
CLUB = "objectClass: groupOfNames\nmember: uid=ben,ou=people,dc=school\n"

NEW = "uid=new,ou=people,dc=school"
GO = "cn=go,ou=clubs,dc=school"

# Grants to all the adding of the entry.
OWN_ITEM = ("entryACI: { identificationTag \"own\", precedence 255, authenticationLevel none, itemOrUserFirst userFirst: { "
            "userClasses { allUsers }, userPermissions { { protectedItems { entry }, grantsAndDenials { grantAdd } } } } }\n")

# Of each row below: who asks, the request and its answer.
NAMELESS = [
    (ANN, add("ou", PERSON), "34"),
    (ANYONE, add("=x", "cn: x\n"), "34"),
    (ANN, add("", PERSON), "53"),
    (ANYONE, add("", "cn: x\n"), "53"),
    # a name of two spaces
    (BEN, "dn:: ICA=\ndo: add\nzz: x\n", "53"),
]

UNREAD = [
    # the first attribute that is none, and in it the first value
    (ANN, add(NEW, "zz: x\n"), "17"),
    (ANN, add(NEW, "zz: x\nc: Nether\n"), "17"),
    (BEN, add(NEW, "2.5.4.999: x\n"), "17"),
    (ANN, add(NEW, "c: Nether\nzz: x\n"), "21"),
    (ANN, add(NEW, "c: NL\nc: Nether\n"), "21"),
    (BEN, add(NEW, "objectClass: inetOrgPerson\nobjectClass: nobody\n"), "21"),
    (ANYONE, add(NEW, "member: ben\n"), "21"),
    # before what comes twice
    (ANN, add(NEW, "cn: a\ncn: a\nsn: x\ncn: b\nzz: x\n"), "17"),
]

TWICE = [
    (ANN, add(NEW, "cn: a\nsn: a\nCN: b\n"), "20"),
    (ANN, add(NEW, "cn: a\n2.5.4.3: b\n"), "20"),
    (BEN, add(NEW, "cn: Ann Lee\ncn: x\ncn: ANN  LEE\n"), "20"),
    (ANN, add(NEW, "telephoneNumber: +1 555\ntelephoneNumber: +1-555\n"), "20"),
    # before what is there
    (ANYONE, add("ou=people,dc=school", "cn: a\ncn: A\n"), "20"),
    (BEN, add("ou=cellar,dc=school", "cn: a\nsn: a\ncn: b\n"), "20"),
]

TAKEN = [
    # may be known of
    (ANN, add("ou=people,dc=school", PERSON), "68"),
    (BEN, add("OU=People,DC=School", DEVICE), "68"),
    (ANYONE, add("dc=school", DEVICE), "68"),
    (ANN, add("ou=cellar,dc=school", DEVICE), "68"),
    # may be added
    (BEN, add("ou=store,dc=school", DEVICE), "68"),
    (BEN, add("cn=ball,ou=store,dc=school", DEVICE), "68"),
    (ANN, add("cn=open,dc=school", SUBENTRY), "68"),
    # neither
    (BEN, add("ou=cellar,dc=school", DEVICE), "32 dc=school"),
    (BEN, add("cn=chest,ou=cellar,dc=school", DEVICE), "32 dc=school"),
    (BEN, add("cn=open,dc=school", SUBENTRY), "32 dc=school"),
    (ANYONE, add("ou=store,dc=school", DEVICE), "32 dc=school"),
]

ALONE = [
    (ANN, add("cn=x,ou=none,dc=school", DEVICE), "32 dc=school"),
    (ANYONE, add("cn=x,ou=none,dc=school", DEVICE), "32 dc=school"),
    (ANN, add("dc=other", DEVICE), "32"),
    (ANN, add("cn=x,dc=other", DEVICE), "32"),
    (ANN, add("cn=x,cn=y,ou=cellar,dc=school", DEVICE), "32 ou=cellar,dc=school"),
    (BEN, add("cn=x,cn=y,ou=cellar,dc=school", DEVICE), "32 dc=school"),
]

NOT_ADDED = [
    # the entry, before its rules
    (BEN, add(NEW, PERSON), "50"),
    (ANYONE, add(NEW, PERSON), "50"),
    (BEN, add(NEW, "objectClass: inetOrgPerson\n"), "50"),
    (BEN, add("cn=bat,ou=cellar,dc=school", DEVICE), "50"),
    (ANYONE, add(GO, CLUB), "50"),
    # a subentry by the subentryACI of its superior alone
    (BEN, add("cn=more,dc=school", SUBENTRY), "50"),
    (ANN, add("cn=more,ou=people,dc=school", SUBENTRY), "50"),
    (BEN, add("cn=more,dc=school", "objectClass: subentry\nsubtreeSpecification: { x }\n"), "50"),
]

NOT_ALL_ADDED = [
    # a value
    (BEN, add(GO, CLUB + "member: uid=ann,ou=people,dc=school\n"), "50"),
    # a type
    (BEN, add(GO, CLUB + "description: d\n"), "50"),
    # those of its own RDN
    (BEN, add("cn=go+description=d,ou=clubs,dc=school", CLUB), "50"),
    # types that are not of users
    (ANN, add(NEW, PERSON + OWN_ITEM), "50"),
    # its own items grant it nothing
    (BEN, add(NEW, PERSON + OWN_ITEM), "50"),
]

RULED = [
    (ANN, add(NEW, "objectClass: inetOrgPerson\ncn: N\n"), "65"),
    (ANN, add("cn=more,dc=school", "objectClass: subentry\nsubtreeSpecification: { x }\n"), "21"),
    (ANN, add(NEW, PERSON + "employeeNumber: 1\nemployeeNumber: 2\n"), "19"),
    (ANN, add("cn=z,cn=open,dc=school", DEVICE), "64"),
    # granted in the store, where it breaks a rule
    (BEN, add("cn=bat,ou=store,dc=school", DEVICE + "sn: N\n"), "65"),
]

# Who asks, the request, the entry then, and the name of the one that stands behind it.
DONE = [
    (ANN, add(NEW, PERSON), f"dn: {NEW}\n{PERSON}uid: new\n", "ou=store,dc=school"),
    (
        ANN,
        add("cn=A+sn=B,ou=people,dc=school", "sn: C\nobjectClass: person\n"),
        "dn: cn=A+sn=B,ou=people,dc=school\nsn: C\nsn: B\nobjectClass: person\ncn: A\n",
        ANN,
    ),
    # in the spelling of the request; a value that is there by its key is not added again
    (
        ANN,
        add("CN=a , ou=Cellar,dc=school", "objectClass: device\ncn: x\ncn:: IEEg\n"),
        "dn: cn=a,ou=Cellar,dc=school\nobjectClass: device\ncn: x\ncn:: IEEg\n",
        "cn=chest,ou=cellar,dc=school",
    ),
    (BEN, add(GO, CLUB), f"dn: {GO}\n{CLUB}cn: go\n", "ou=groups,dc=school"),
    (BEN, add("cn=bat,ou=store,dc=school", DEVICE), "dn: cn=bat,ou=store,dc=school\nobjectClass: device\ncn: bat\n", None),
    (
        BEN,
        add("cn=oil,cn=ball,ou=store,dc=school", DEVICE),
        "dn: cn=oil,cn=ball,ou=store,dc=school\nobjectClass: device\ncn: oil\n",
        None,
    ),
    (ANN, add("cn=more,dc=school", SUBENTRY), f"dn: cn=more,dc=school\n{SUBENTRY}cn: more\n", "cn=office,dc=school"),
    # beside others, and below one of them
    (
        BEN,
        add("cn=board,ou=clubs,dc=school", CLUB),
        f"dn: cn=board,ou=clubs,dc=school\n{CLUB}cn: board\n",
        "cn=chess,ou=clubs,dc=school",
    ),
    (
        BEN,
        add("cn=zoo,cn=chess,ou=clubs,dc=school", CLUB),
        f"dn: cn=zoo,cn=chess,ou=clubs,dc=school\n{CLUB}cn: zoo\n",
        "ou=groups,dc=school",
    ),
]


@test
def a_name_that_is_none_names_nothing():
    return [steps(SCHOOL, NAMELESS, "adds", ANN)]


@test
def the_first_attribute_that_cannot_be_read_decides():
    return [steps(SCHOOL, UNREAD, "adds", ANN)]


@test
def no_type_and_no_value_comes_twice():
    return [steps(SCHOOL, TWICE, "adds", ANN)]


@test
def a_name_that_is_taken_is_told_to_who_may_know():
    return [steps(SCHOOL, TAKEN, "adds", ANN)]


@test
def an_entry_without_a_superior_is_not_added():
    return [steps(SCHOOL, ALONE, "adds", ANN)]


@test
def an_entry_that_may_not_be_added_is_refused():
    return [steps(SCHOOL, NOT_ADDED, "adds", ANN)]


@test
def each_type_and_value_is_to_be_granted():
    return [steps(SCHOOL, NOT_ALL_ADDED, "adds", ANN)]


@test
def an_entry_that_breaks_a_rule_is_not_added():
    return [steps(SCHOOL, RULED, "adds", ANN)]


@test
def an_entry_that_may_be_added_stands_in_its_place():
    return [steps(SCHOOL, [(who, request, "0")], entry, ANN, with_before(SCHOOL, behind, entry))
            for who, request, entry, behind in DONE]
