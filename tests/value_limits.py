"""How many values of a type may be added, and which, under the limits of access control items: maxValueCount and
restrictedBy (X.501 18.4.2.4)."""

from program import explained, test
from steps import add, asked, modify

# Grants all to all, but no third description, and no owner that is not a member.
LIMITED = """\
prescriptiveACI: { identificationTag "limited", precedence 20, authenticationLevel none, itemOrUserFirst userFirst: {
  userClasses { allUsers }, userPermissions { { protectedItems { entry, allUserAttributeTypesAndValues, maxValueCount
  { { type description, maxCount 2 } }, restrictedBy { { type owner, valuesIn member } } }, grantsAndDenials {
  grantAdd, grantDiscloseOnError, grantRead, grantRemove, grantBrowse, grantModify, grantReturnDN, grantCompare,
  grantFilterMatch } } } } }
"""

# Grants all to all.
UNLIMITED = """\
prescriptiveACI: { identificationTag "unlimited", precedence 10, authenticationLevel none, itemOrUserFirst userFirst: {
  userClasses { allUsers }, userPermissions { { protectedItems { entry, allUserAttributeTypesAndValues },
  grantsAndDenials { grantAdd, grantDiscloseOnError, grantRead, grantRemove, grantBrowse, grantModify, grantReturnDN,
  grantCompare, grantFilterMatch } } } } }
"""

# Grants to all the adding of descriptions, but no second one.
ONE_ONLY = """\
prescriptiveACI: { identificationTag "one", precedence 30, authenticationLevel none, itemOrUserFirst userFirst: {
  userClasses { allUsers }, userPermissions { { protectedItems { allAttributeValues { description }, maxValueCount {
  { type description, maxCount 1 }, { type description, maxCount 9 } } }, grantsAndDenials { grantAdd } } } } }
"""

# Denies to all the adding of one description, beside a limit that any number of them is past.
NO_Z = """\
prescriptiveACI: { identificationTag "no z", precedence 30, authenticationLevel none, itemOrUserFirst userFirst: {
  userClasses { allUsers }, userPermissions { { protectedItems { attributeValue { { type description, value "z" } },
  maxValueCount { { type description, maxCount 0 } } }, grantsAndDenials { denyAdd } } } } }
"""

# Groups with one description, with two, and with three.
MEMBER = "member: cn=d,dc=v\n"
ONE, TWO, THREE = "cn=one,dc=v", "cn=two,dc=v", "cn=three,dc=v"


def descriptions(values):
    """The lines of these descriptions, each of one letter."""
    return "".join(f"description: {value}\n" for value in values)


def group(name, lines):
    """A group, under its name."""
    return f"\ndn: {name}\nobjectClass: groupOfNames\ncn: {name[3:-5]}\n{lines}"


LINES = {ONE: MEMBER + descriptions("a"), THREE: MEMBER + descriptions("abc"), TWO: MEMBER + descriptions("ab")}


def groups(items):
    """The data file of the groups under these items."""
    return ("dn: dc=v\nobjectClass: domain\ndc: v\nadministrativeRole: autonomousArea\n\n"
            "dn: cn=limits,dc=v\nobjectClass: subentry\nobjectClass: accessControlSubentry\ncn: limits\nsubtreeSpecification: { }\n"
            + items + "".join(group(name, lines) for name, lines in LINES.items()))


# Of each row below: what it shows, the group, the changes, the answer, and the lines of the group then, where they are others.
COUNTED = [
    ("a second", ONE, "add: description\nvalue: b\n", "0", MEMBER + descriptions("ab")),
    ("a second and a third", ONE, "add: description\nvalue: b\nvalue: c\n", "50", None),
    (
        "two after the first is gone",
        ONE,
        "delete: description\nvalue: a\nadd: description\nvalue: b\nvalue: c\n",
        "0",
        MEMBER + descriptions("bc"),
    ),
    (
        "a second, and then a third in the same request",
        ONE,
        "add: description\nvalue: b\nadd: description\nvalue: c\n",
        "50",
        None,
    ),
    (
        "a third before the first goes",
        ONE,
        "add: description\nvalue: b\nvalue: c\ndelete: description\nvalue: a\n",
        "50",
        None,
    ),
    ("one that is there, and two more", ONE, "add: description\nvalue: a\nvalue: b\nvalue: c\n", "20", None),
    ("a third", TWO, "add: description\nvalue: c\n", "50", None),
    ("a fourth", THREE, "add: description\nvalue: d\n", "50", None),
    (
        "one for another, where three are there",
        THREE,
        "delete: description\nvalue: a\nadd: description\nvalue: d\n",
        "50",
        None,
    ),
    (
        "values of a type without a limit",
        ONE,
        "add: o\nvalue: x\nvalue: y\nvalue: z\n",
        "0",
        LINES[ONE] + "o: x\no: y\no: z\n",
    ),
]

REPLACED = [
    ("by two", ONE, "replace: description\nvalue: b\nvalue: c\n", "0", MEMBER + descriptions("bc")),
    ("by three", ONE, "replace: description\nvalue: b\nvalue: c\nvalue: d\n", "50", None),
    ("by one more than may be", TWO, "replace: description\nvalue: a\nvalue: b\nvalue: c\n", "50", None),
    ("three by two others", THREE, "replace: description\nvalue: d\nvalue: e\n", "0", MEMBER + descriptions("de")),
    (
        "by the same three, of which none comes",
        THREE,
        "replace: description\nvalue: c\nvalue: b\nvalue: a\n",
        "0",
        MEMBER + descriptions("cba"),
    ),
]

OWNED = [
    ("a member", ONE, "add: owner\nvalue: CN=D,dc=v\n", "0", LINES[ONE] + "owner: CN=D,dc=v\n"),
    ("no member", ONE, "add: owner\nvalue: cn=x,dc=v\n", "50", None),
    ("a member, and one that is none", ONE, "add: owner\nvalue: cn=d,dc=v\nvalue: cn=x,dc=v\n", "50", None),
    (
        "who became a member",
        ONE,
        "add: member\nvalue: cn=x,dc=v\nadd: owner\nvalue: cn=x,dc=v\n",
        "0",
        "member: cn=d,dc=v\nmember: cn=x,dc=v\ndescription: a\nowner: cn=x,dc=v\n",
    ),
    (
        "who becomes a member afterwards",
        ONE,
        "add: owner\nvalue: cn=x,dc=v\nadd: member\nvalue: cn=x,dc=v\n",
        "50",
        None,
    ),
    (
        "who is no member any more",
        ONE,
        "add: member\nvalue: cn=x,dc=v\ndelete: member\nvalue: cn=d,dc=v\nadd: owner\nvalue: cn=d,dc=v\n",
        "50",
        None,
    ),
]

TAKEN = [
    ("one of three", THREE, "delete: description\nvalue: b\n", "0", MEMBER + descriptions("ac")),
    ("all three", THREE, "delete: description\n", "0", MEMBER),
    (
        "the member that an owner is",
        ONE,
        "add: owner\nvalue: cn=d,dc=v\nreplace: member\nvalue: cn=x,dc=v\n",
        "0",
        "member: cn=x,dc=v\ndescription: a\nowner: cn=d,dc=v\n",
    ),
]

# What is shown, the lines of a new group, and the answer.
ADDED = [
    ("two descriptions", descriptions("ab") + MEMBER, "0"),
    ("three descriptions", descriptions("abc") + MEMBER, "50"),
    ("a member as owner", "owner: cn=d,dc=v\n" + MEMBER, "0"),
    ("an owner that is no member", "owner: cn=x,dc=v\n" + MEMBER, "50"),
]

# What is shown, the items, the descriptions that are added to one, and the answer.
BESIDE = [
    ("a grant without a limit at a lower precedence", LIMITED + UNLIMITED, "bc", "0"),
    ("a limit that is passed at a higher precedence leaves the next grant", LIMITED + ONE_ONLY, "b", "0"),
    ("each grant has its own limit", LIMITED + ONE_ONLY, "bc", "50"),
    ("a denial is not limited", LIMITED + NO_Z, "z", "50"),
    ("nor does its limit reach what it does not deny", LIMITED + NO_Z, "y", "0"),
    ("the limit of a denial is none of a grant beside it", UNLIMITED + NO_Z, "bcd", "0"),
]

GRANTED = """\
subentry cn=limits,dc=v
listed 1
users 1
item 1
permission 1
precedence 1
class 1
explicit 1
kept cn=limits,dc=v "limited" grant
granted
"""

BARRED = """\
subentry cn=limits,dc=v
listed 1
users 1
item 1
permission 0
precedence 0
class 0
explicit 0
refused
"""

# What is shown, the words of a decision, and how it is explained.
EXPLAINED = [
    ("a second value", f"explain d anonymous {ONE} value:description=b Add", GRANTED),
    ("a third value", f"explain d anonymous {TWO} value:description=c Add", BARRED),
    ("one that is there is not counted twice", f"explain d anonymous {TWO} value:description=b Add", GRANTED),
    ("nor where there are too many", f"explain d anonymous {THREE} value:description=b Add", BARRED),
    ("a member", f"explain d anonymous {ONE} value:owner=cn=d,dc=v Add", GRANTED),
    ("no member", f"explain d anonymous {ONE} value:owner=cn=x,dc=v Add", BARRED),
    ("a type is no value", f"explain d anonymous {THREE} type:description Add", GRANTED),
    ("what is there is read", f"explain d anonymous {THREE} value:description=b Read", GRANTED),
    ("and compared", f"explain d anonymous {THREE} value:description=b Compare", GRANTED),
    ("and removed", f"explain d anonymous {THREE} value:description=b Remove", GRANTED),
]


def look(name, lines):
    """Anyone finds a group with these lines."""
    return "", f"dn: {name}\ndo: search\n", "0", group(name, lines)


def changed(rows):
    """The runs of modifies of groups."""
    return [asked(groups(LIMITED), [("", modify(name, lines), answer), look(name, left or LINES[name])], what)
            for what, name, lines, answer, left in rows]


@test
def a_grant_lets_so_many_values_be_added():
    return changed(COUNTED)


@test
def so_many_values_may_replace_others():
    return changed(REPLACED)


@test
def a_grant_lets_values_be_added_that_another_type_has():
    return changed(OWNED)


@test
def a_limit_leaves_the_removing_of_values():
    return changed(TAKEN)


@test
def a_new_entry_keeps_the_limits():
    new = "cn=new,dc=v"
    found = {"50": ("", f"dn: {new}\ndo: search\n", "32 dc=v")}
    return [asked(groups(LIMITED), [("", add(new, "objectClass: groupOfNames\ncn: new\n" + lines), answer),
                                    found.get(answer) or look(new, lines)], what)
            for what, lines, answer in ADDED]


@test
def a_limit_takes_away_its_own_grant_alone():
    return [asked(groups(items), [("", modify(ONE, "add: description\n" + "".join(f"value: {value}\n" for value in values)), answer),
                                  look(ONE, MEMBER + descriptions("a" if answer == "50" else "a" + values))], what)
            for what, items, values, answer in BESIDE]


@test
def a_limit_counts_at_the_filter_of_permissions():
    return explained(groups(LIMITED), EXPLAINED)
