"""How long a value of an add or of a modify may be, and how many access control subentries there may be."""

import school
from program import test
from school import SCHOOL
from shop import ANN, BEN, SHOP
from steps import add, asked, modify, steps, with_before

# The most octets that a value may have, and one more.
MOST, MORE = 65_536, 65_537

# How long a description is, a line after it, and the answer.
LENGTHS = [
    (MOST, "l: here\n", "0"),
    (MORE, "l: here\n", "19"),
    # the first that is none decides
    (MOST, "c: Nether\n", "21"),
    (MORE, "c: Nether\n", "19"),
]

# A change of Ben's description, how long its value is, the change behind it, the answer, and the lines of the description then.
CHANGED_LENGTHS = [
    ("add", MOST, "add: l\nvalue: here\n", "0", "description: Fast\ndescription: {}\nl: here\n"),
    ("add", MORE, "add: l\nvalue: here\n", "19", "description: Fast\n"),
    ("replace", MOST, "add: l\nvalue: here\n", "0", "description: {}\nl: here\n"),
    ("replace", MORE, "add: l\nvalue: here\n", "19", "description: Fast\n"),
    # a value that is not there
    ("delete", MOST, "add: l\nvalue: here\n", "16", "description: Fast\n"),
    ("delete", MORE, "add: l\nvalue: here\n", "19", "description: Fast\n"),
    # the first change that is none decides
    ("add", MOST, "add: c\nvalue: Nether\n", "21", "description: Fast\n"),
    ("add", MORE, "add: c\nvalue: Nether\n", "19", "description: Fast\n"),
    ("replace", MOST, "add: zz\nvalue: x\n", "17", "description: Fast\n"),
    ("replace", MORE, "add: zz\nvalue: x\n", "19", "description: Fast\n"),
]

# A suffix below which anyone may put subentries in, change and find them.
CROWD = """\
dn: dc=crowd
objectClass: domain
dc: crowd
administrativeRole: autonomousArea
subentryACI: { identificationTag "a", precedence 0, authenticationLevel none, itemOrUserFirst userFirst: { userClasses {
  allUsers }, userPermissions { { protectedItems { entry, attributeType { objectClass, cn, subtreeSpecification,
  prescriptiveACI }, allAttributeValues { objectClass, cn, subtreeSpecification, prescriptiveACI } },
  grantsAndDenials { grantAdd, grantRemove, grantBrowse, grantModify, grantReturnDN, grantFilterMatch } } } } }
"""

EMPTY_ITEM = ("{ identificationTag \"e\", precedence 0, authenticationLevel none, itemOrUserFirst userFirst: { userClasses { }, "
              "userPermissions { } } }")

# The lines of a subentry that is for access control, and of one that is not.
RULES = f"objectClass: subentry\nobjectClass: accessControlSubentry\nsubtreeSpecification: {{ }}\nprescriptiveACI: {EMPTY_ITEM}\n"
PLAIN = "objectClass: subentry\nsubtreeSpecification: { }\n"

# The suffix with 255 subentries that are for access control, and the names of these.
NAMES = [f"cn=s{number},dc=crowd" for number in range(255)]
CROWDED = CROWD + "".join(f"\ndn: {name}\n{RULES}" for name in NAMES)

ONE, TWO = "cn=one,dc=crowd", "cn=two,dc=crowd"

GAINS = f"add: objectClass\nvalue: accessControlSubentry\nadd: prescriptiveACI\nvalue: {EMPTY_ITEM}\n"
LOSES = "delete: prescriptiveACI\ndelete: objectClass\nvalue: accessControlSubentry\n"

ADDS = [("", add(ONE, RULES), "0"), ("", add(TWO, RULES), "11"), ("", add(TWO, PLAIN), "0")]

CHANGES = [
    ("", add(ONE, PLAIN), "0"),
    ("", add(TWO, PLAIN), "0"),
    # the 256th, and the 257th
    ("", modify(ONE, GAINS), "0"),
    ("", modify(TWO, GAINS), "11"),
    ("", modify(TWO, "add: objectClass\nvalue: accessControlSubentry\n"), "11"),
    # one of the 256 is not counted beside itself
    ("", modify(ONE, "replace: subtreeSpecification\nvalue: { minimum 1 }\n"), "0"),
    ("", modify(ONE, LOSES), "0"),
    ("", modify(TWO, GAINS), "0"),
    ("", modify(ONE, GAINS), "11"),
]


def look(text, names):
    """Anyone finds the subentries of a filter."""
    request = f"dn: dc=crowd\ndo: search\nscope: sub\nsubentries: TRUE\nfilter: {text}\nselect: 1.1\n"
    return "", request, "0", "".join(f"\ndn: {name}\n" for name in sorted(names))


@test
def a_value_has_up_to_65536_octets():
    lines = [(f"objectClass: device\ndescription: {length * 'x'}\n{line}", answer) for length, line, answer in LENGTHS]
    return [steps(SCHOOL, [(school.ANN, add("cn=N,ou=people,dc=school", text), answer)], text[-20:], school.ANN,
                  with_before(SCHOOL, school.ANN, f"dn: cn=N,ou=people,dc=school\n{text}cn: N\n") if answer == "0" else None)
            for text, answer in lines]


@test
def a_value_of_a_modify_has_up_to_65536_octets():
    return [steps(SHOP, [(ANN, modify(BEN, f"{change}: description\nvalue: {length * 'x'}\n{behind}"), answer)], behind, ANN,
                  SHOP.replace("description: Fast\n", then.format(length * "x")))
            for change, length, behind, answer, then in CHANGED_LENGTHS]


@test
def a_directory_has_up_to_256_access_control_subentries():
    return [asked(CROWDED, [*ADDS, look("(objectClass=subentry)", [*NAMES, ONE, TWO])], "adds")]


@test
def a_modify_leaves_up_to_256_access_control_subentries():
    return [asked(CROWDED, [*CHANGES, look("(objectClass=accessControlSubentry)", [*NAMES, TWO])], "modifies")]
