"""Modifies of a shop's rules and entries, and how decisions are explained over what each leaves."""

from program import Run, test
from shop import ANN, BEN, BOX, OPEN, SHOP, VAULT
from steps import modify, steps, without

CLERK = "cn=clerk,dc=shop"

# Grants to all that the entry is removed.
TO_ALL = ("{ identificationTag \"all\", precedence 40, authenticationLevel none, itemOrUserFirst userFirst: { userClasses { "
          "allUsers }, userPermissions { { protectedItems { entry }, grantsAndDenials { grantRemove } } } } }")

# To all the adding of addresses is denied, and to Ben it is granted.
MAILS = ("{ identificationTag \"mails\", precedence 20, authenticationLevel simple, itemOrUserFirst itemFirst: { protectedItems "
         "{ attributeType { mail } }, itemPermissions { { userClasses { allUsers }, grantsAndDenials { denyAdd } }, { "
         "userClasses { name { \"uid=ben,ou=people,dc=shop\" } }, grantsAndDenials { grantAdd } } } } }")

# The data file in unfolded lines, and the clerk's item.
PLAIN = SHOP.replace("\n ", "")
ITEM = next(line for line in PLAIN.splitlines(True) if "\"clerk\"" in line)

# The words of questions.
MAY_SEE_BEN = f"anonymous {BEN} entry Browse"
MAY_SEE_BOX = f"anonymous {BOX} entry Browse"
MAY_ADD_MAIL = f"{BEN} {BEN} type:mail Add"
MAY_REMOVE_ANN = f"{BEN} {ANN} entry Remove"
MAY_CHANGE_BOX = f"{BEN} {BOX} entry Modify"

# The subentries in force in the unit of people, and in the vault.
PEOPLE = "subentry cn=clerk,dc=shop\nsubentry cn=head,dc=shop\nsubentry cn=open,dc=shop\n"
KEYS = "subentry cn=head,dc=shop\nsubentry cn=keys,dc=shop\n"


def left(*counts):
    """The lines of how many tuples are left after each step."""
    names = ("listed", "users", "item", "permission", "precedence", "class", "explicit")
    return "".join(f"{name} {count}\n" for name, count in zip(names, counts, strict=True))


# Ben is seen by what is open to all, beside five tuples of the clerk's and one of the head's.
BEN_IS_SEEN = PEOPLE + left(7, 1, 1, 1, 1, 1, 1) + "kept cn=open,dc=shop \"open\" grant\ngranted\n"

# Nothing of what counts for him is for all.
BEN_IS_HIDDEN = "subentry cn=clerk,dc=shop\nsubentry cn=head,dc=shop\n" + left(6, 0, 0, 0, 0, 0, 0) + "refused\n"

# The box is Ben's to change by the keys.
BOX_IS_BENS = KEYS + left(2, 1, 1, 1, 1, 1, 1) + "kept cn=keys,dc=shop \"keys\" grant\ngranted\n"

# Each modify by Ann of an entry: its name and changes, what of the data file gives way and what stands there then, and the
# questions and explanations behind it; first those before all changes.
SUBTREES = [
    ("", "", "", "", [(MAY_SEE_BEN, BEN_IS_SEEN), (MAY_SEE_BOX, KEYS + left(2, 0, 0, 0, 0, 0, 0) + "refused\n")]),
    # what is open is the vault alone
    (
        OPEN,
        "replace: subtreeSpecification\nvalue: { base \"ou=vault\" }\n",
        "{ specificExclusions { chopBefore:\"ou=vault\" } }",
        "{ base \"ou=vault\" }",
        [
            (MAY_SEE_BEN, BEN_IS_HIDDEN),
            (
                MAY_SEE_BOX,
                KEYS + "subentry cn=open,dc=shop\n" + left(3, 1, 1, 1, 1, 1, 1) + "kept cn=open,dc=shop \"open\" grant\ngranted\n",
            ),
        ],
    ),
]

ITEMS = [
    # the clerk's item has a tuple on addresses, without Add
    ("", "", "", "", [(MAY_ADD_MAIL, PEOPLE + left(7, 6, 1, 0, 0, 0, 0) + "refused\n")]),
    # a second item beside it, of which the tuple that names Ben decides
    (
        CLERK,
        f"add: prescriptiveACI\nvalue: {MAILS}\n",
        ITEM,
        f"{ITEM}prescriptiveACI: {MAILS}\n",
        [(MAY_ADD_MAIL, PEOPLE + left(9, 8, 3, 2, 2, 1, 1) + "kept cn=clerk,dc=shop \"mails\" grant\ngranted\n")],
    ),
    # it alone
    (
        CLERK,
        f"replace: prescriptiveACI\nvalue: {MAILS}\n",
        ITEM,
        "",
        [(MAY_ADD_MAIL, PEOPLE + left(4, 3, 2, 2, 2, 1, 1) + "kept cn=clerk,dc=shop \"mails\" grant\ngranted\n")],
    ),
    # none
    (
        CLERK,
        f"delete: prescriptiveACI\nvalue: {MAILS}\n",
        f"prescriptiveACI: {MAILS}\n",
        "",
        [
            (MAY_ADD_MAIL, PEOPLE + left(2, 1, 0, 0, 0, 0, 0) + "refused\n"),
            (MAY_REMOVE_ANN, PEOPLE + left(2, 1, 1, 0, 0, 0, 0) + "refused\n"),
        ],
    ),
    # an item of the entry itself
    (
        ANN,
        f"add: entryACI\nvalue: {TO_ALL}\n",
        "sn: A\nuserPassword: pw\n",
        f"sn: A\nuserPassword: pw\nentryACI: {TO_ALL}\n",
        [(MAY_REMOVE_ANN, PEOPLE + left(3, 2, 2, 1, 1, 1, 1) + f"kept {ANN} \"all\" grant\ngranted\n")],
    ),
]

ROLES = [
    ("", "", "", "", [(MAY_CHANGE_BOX, BOX_IS_BENS)]),
    # an inner area leaves what counts from above
    (
        VAULT,
        "add: administrativeRole\nvalue: accessControlInnerArea\n",
        "ou: vault\n",
        "ou: vault\nadministrativeRole: accessControlInnerArea\n",
        [(MAY_CHANGE_BOX, BOX_IS_BENS)],
    ),
    # a specific one has its own rules alone: none
    (
        VAULT,
        "replace: administrativeRole\nvalue: accessControlSpecificArea\n",
        "accessControlInnerArea",
        "accessControlSpecificArea",
        [(MAY_CHANGE_BOX, left(0, 0, 0, 0, 0, 0, 0) + "refused\n")],
    ),
]

CLASSES = [
    (
        OPEN,
        "replace: subtreeSpecification\nvalue: { specificationFilter not:item:uidObject }\n",
        "{ specificExclusions { chopBefore:\"ou=vault\" } }",
        "{ specificationFilter not:item:uidObject }",
        [(MAY_SEE_BEN, BEN_IS_SEEN)],
    ),
    (
        BEN,
        "add: objectClass\nvalue: uidObject\n",
        "objectClass: inetOrgPerson\nuid: ben\n",
        "objectClass: inetOrgPerson\nobjectClass: uidObject\nuid: ben\n",
        [(MAY_SEE_BEN, BEN_IS_HIDDEN)],
    ),
    (
        BEN,
        "delete: objectClass\nvalue: uidObject\n",
        "objectClass: uidObject\n",
        "",
        [(MAY_SEE_BEN, BEN_IS_SEEN)],
    ),
]


def after(rows, hidden=()):
    """The runs of the modifies, all up to each, and of the questions behind it; these entries are seen no more at the end."""
    data, changes, runs = PLAIN, [], []
    for name, lines, old, new, questions in rows:
        data = data.replace(old, new, 1)
        runs += [Run("explain d " + words, want, lines, data=data) for words, want in questions]
        changes += [(ANN, modify(name, lines), "0")] if lines else []
    for name in hidden:
        data = without(data, name)
    return [*runs, steps(SHOP, changes, "all modifies", ANN, data)]


@test
def a_decision_is_explained_by_a_changed_subtree():
    return after(SUBTREES)


@test
def a_decision_is_explained_by_a_changed_item():
    return after(ITEMS)


@test
def a_decision_is_explained_by_a_changed_role():
    return after(ROLES, [VAULT, BOX, "cn=safe,ou=vault,dc=shop"])


@test
def a_decision_is_explained_by_changed_classes_under_a_refinement():
    return after(CLASSES)
