"""Changes one after the other: each is decided over what those before it left."""

import school
import shop
from program import Run, test
from school import SCHOOL
from shop import BOX, OPEN, SHOP, VAULT
from steps import add, asked, delete, modify, rename, steps, with_before, without
from trees import POINT

CLUB = "objectClass: groupOfNames\nmember: uid=ben,ou=people,dc=school\n"
GO = "cn=go,ou=clubs,dc=school"
CELLAR, CHEST = "ou=cellar,dc=school", "cn=chest,ou=cellar,dc=school"

# Grants to all that the entry is removed.
TO_ALL = ("{ identificationTag \"all\", precedence 40, authenticationLevel none, itemOrUserFirst userFirst: { userClasses { "
          "allUsers }, userPermissions { { protectedItems { entry }, grantsAndDenials { grantRemove } } } } }")

# Denies to all that the entry is modified.
NO_MORE = ("{ identificationTag \"no more\", precedence 255, authenticationLevel none, itemOrUserFirst userFirst: { userClasses "
           "{ allUsers }, userPermissions { { protectedItems { entry }, grantsAndDenials { denyModify } } } } }")

# Of each row below: who asks, the request and its answer.
AGAIN = [
    (school.BEN, add(GO, CLUB), "0"),
    (school.ANN, add(GO, CLUB), "68"),
    (school.BEN, delete(GO), "0"),
    (school.BEN, delete(GO), "32 ou=clubs,dc=school"),
    (school.ANN, add(GO, CLUB), "0"),
    (school.ANN, delete("ou=clubs,dc=school"), "66"),
]

BRANCH = [
    (school.ANN, delete(CELLAR), "66"),
    (school.ANN, delete(CHEST), "0"),
    (school.ANN, delete(CELLAR), "0"),
    (school.ANN, delete(CELLAR), "32 dc=school"),
    (school.BEN, delete(CELLAR), "32 dc=school"),
]

# A subentry by which all may remove what is in the cellar.
FREE = ("objectClass: subentry\nobjectClass: accessControlSubentry\nsubtreeSpecification: { base \"ou=cellar\" }\n"
        f"prescriptiveACI: {TO_ALL}\n")

SUBENTRIES = [
    # what is no longer open is no longer known of
    (school.ANYONE, delete("ou=groups,dc=school"), "50"),
    (school.ANN, delete("cn=open,dc=school"), "0"),
    (school.ANYONE, delete("ou=groups,dc=school"), "32"),
    # a new subentry is in force at once
    (school.ANYONE, delete(CHEST), "32"),
    (school.ANN, add("cn=free,dc=school", FREE), "0"),
    (school.ANYONE, delete(CHEST), "0"),
    (school.ANYONE, delete(CELLAR), "0"),
]

OFFICE = "cn=office,ou=groups,dc=school"

# Behind them anyone looks for the names of groups.
GROUPS = [
    (school.BEN, delete(CHEST), "32 dc=school"),
    (school.ANN, delete(OFFICE), "0"),
    (school.ANN, delete(school.BEN), "50"),
    (school.ANN, add(OFFICE, "objectClass: groupOfNames\nmember: uid=ben,ou=people,dc=school\n"), "50"),
    (
        school.ANYONE,
        "dn: dc=school\ndo: search\nscope: sub\nfilter: (&)\nselect: 1.1\n",
        "0",
        "\ndn: dc=school\n\ndn: ou=clubs,dc=school\n\ndn: cn=chess,ou=clubs,dc=school\n\ndn: ou=groups,dc=school\n"
        "\ndn: ou=people,dc=school\n\ndn: uid=ann,ou=people,dc=school\n\ndn: uid=ben,ou=people,dc=school\n",
    ),
]

RULES = [
    (shop.ANYONE, delete(shop.BEN), "50"),
    # what is open is the vault alone
    (shop.ANN, modify(OPEN, "replace: subtreeSpecification\nvalue: { base \"ou=vault\" }\n"), "0"),
    (shop.ANYONE, delete(shop.BEN), "32"),
    (shop.ANYONE, delete(BOX), "50"),
    # and may be removed
    (shop.ANN, modify(OPEN, f"replace: prescriptiveACI\nvalue: {TO_ALL}\n"), "0"),
    (shop.ANYONE, delete(BOX), "0"),
]

OWN = [
    (shop.BEN, delete(shop.ANN), "50"),
    (shop.ANN, modify(shop.ANN, f"add: entryACI\nvalue: {TO_ALL}\n"), "0"),
    (shop.BEN, delete(shop.BEN), "50"),
    (shop.ANYONE, delete(shop.ANN), "0"),
]

AREA = [
    (shop.ANN, delete(VAULT), "66"),
    (shop.ANN, modify(VAULT, "add: administrativeRole\nvalue: accessControlSpecificArea\n"), "0"),
    # an area of its own, with no rules
    (shop.ANN, delete(BOX), "32 dc=shop"),
    (shop.ANN, modify(VAULT, "delete: administrativeRole\n"), "32 dc=shop"),
    (shop.ANN, delete(VAULT), "32 dc=shop"),
]

CLASSES = [
    (shop.ANN, modify(OPEN, "replace: subtreeSpecification\nvalue: { specificationFilter not:item:uidObject }\n"), "0"),
    (shop.ANYONE, delete(shop.BEN), "50"),
    (shop.ANN, modify(shop.BEN, "add: objectClass\nvalue: uidObject\n"), "0"),
    (shop.ANYONE, delete(shop.BEN), "32 ou=people,dc=shop"),
    (shop.ANN, modify(shop.BEN, "delete: objectClass\nvalue: uidObject\n"), "0"),
    (shop.ANYONE, delete(shop.BEN), "50"),
]

BEFORE = [
    # what is Ann's is what is no uidObject
    (
        shop.ANN,
        modify("cn=head,dc=shop", "replace: subtreeSpecification\nvalue: { specificationFilter not:item:uidObject }\n"),
        "0",
    ),
    (shop.ANN, modify(shop.BEN, "add: objectClass\nvalue: uidObject\ndelete: title\n"), "0"),
    # and Ben's entry is hers no longer, also to take the class away
    (shop.ANN, modify(shop.BEN, "delete: objectClass\nvalue: uidObject\n"), "50"),
    # her own, with an item that counts from then on
    (shop.ANN, modify(shop.ANN, f"add: entryACI\nvalue: {NO_MORE}\nadd: mail\nvalue: ann@shop.example\n"), "0"),
    (shop.ANN, modify(shop.ANN, "delete: entryACI\n"), "50"),
    (shop.ANN, delete(shop.ANN), "0"),
]

ROB = "uid=rob,ou=people,dc=shop"

NAMED = [
    (shop.ANN, rename(OPEN, "cn=free"), "0"),
    (shop.ANN, modify(OPEN, "replace: mobile\n"), "32 dc=shop"),
    (shop.ANYONE, delete(shop.BEN), "50"),
    (shop.BEN, rename(shop.BEN, "uid=rob", "ou=people,dc=shop"), "0"),
    # he who asks keeps the name that he was bound with
    (None, modify(shop.BEN, "replace: mobile\n"), "32 ou=people,dc=shop"),
    (None, modify(ROB, "add: telephoneNumber\nvalue: +1 555 0102\n"), "0"),
    (shop.ANYONE, delete(ROB), "50"),
]

# Deletes of the subentry, of the suffix, and of the subentry again (RFC 4511 4.8).
LAST = "open 1\nsend 1 300e0201014a09636e3d612c64633d74\nsend 1 30090201024a0464633d74\nsend 1 300e0201034a09636e3d612c64633d74\n"


@test
def what_was_added_can_be_deleted_and_added_again():
    left = with_before(SCHOOL, "ou=groups,dc=school", f"dn: {GO}\n{CLUB}cn: go\n")
    return [steps(SCHOOL, AGAIN, "a club", school.ANN, left)]


@test
def a_branch_goes_from_below():
    return [steps(SCHOOL, BRANCH, "the cellar", school.ANN, without(without(SCHOOL, CELLAR), CHEST))]


@test
def subentries_are_in_force_while_they_stand():
    left = with_before(without(without(SCHOOL, CELLAR), CHEST), "cn=office,dc=school", f"dn: cn=free,dc=school\n{FREE}cn: free\n")
    return [steps(SCHOOL, SUBENTRIES, "what is open, and the cellar", school.ANN, without(left, "cn=open,dc=school"))]


@test
def a_group_that_is_gone_has_no_members():
    return [asked(SCHOOL, GROUPS, "the office")]


@test
def the_last_subentry_may_be_deleted_and_the_suffix_not():
    answers = "1 300c0201016b070a010004000400300c0201026b070a012004000400300c0201036b070a012004000400\n"
    return [Run("replay d s --dump", f"{answers}version: 1\n\n{without(POINT, 'cn=a,dc=t')}", "a point", data=POINT, script=LAST)]


@test
def a_subtree_and_an_item_are_in_force_as_they_are_changed():
    left = without(SHOP, BOX).replace("{ specificExclusions { chopBefore:\"ou=vault\" } }", "{ base \"ou=vault\" }")
    front, _item, rest = left.partition("{ identificationTag \"open\"")
    return [steps(SHOP, RULES, "what is open", shop.ANN, front + TO_ALL + rest[rest.index("\n"):])]


@test
def an_item_of_the_entry_itself_is_in_force_at_once():
    names = "".join(f"\ndn: {name}\n" for name in ("dc=shop", "ou=people,dc=shop", shop.BEN))
    look = (shop.ANYONE, "dn: dc=shop\ndo: search\nscope: sub\nfilter: (&)\nselect: 1.1\n", "0", names)
    return [asked(SHOP, [*OWN, look], "Ann's entry")]


@test
def an_area_begins_where_a_role_comes():
    left = SHOP
    for name in (VAULT, BOX, "cn=safe,ou=vault,dc=shop"):
        left = without(left, name)
    return [steps(SHOP, AREA, "the vault, which then nobody sees", shop.ANN, left)]


@test
def a_subtree_of_classes_follows_the_classes():
    left = SHOP.replace("{ specificExclusions { chopBefore:\"ou=vault\" } }", "{ specificationFilter not:item:uidObject }")
    return [steps(SHOP, CLASSES, "Ben's classes", shop.ANN, left)]


@test
def a_modify_is_decided_by_the_entry_before_its_changes():
    names = "".join(f"\ndn: {name}\n" for name in ("dc=shop", "ou=people,dc=shop", shop.BEN))
    look = (shop.ANYONE, "dn: dc=shop\ndo: search\nscope: sub\nfilter: (&)\nselect: 1.1\n", "0", names)
    return [asked(SHOP, [*BEFORE, look], "Ann's own and Ben's")]


@test
def what_was_renamed_is_found_by_its_new_name_alone():
    left = SHOP.replace("cn=open,dc=shop\n", "cn=free,dc=shop\n").replace("cn: open\n", "cn: free\n")
    left = left.replace(f"dn: {shop.BEN}\n", f"dn: {ROB}\n").replace("uid: ben\n", "uid: rob\n")
    left = left.replace("+1 555 0101\n", "+1 555 0101\ntelephoneNumber: +1 555 0102\n")
    entry = next(record for record in left.split("\n\n") if "cn: free\n" in record)
    return [steps(SHOP, NAMED, "what is open, and Ben", shop.ANN, with_before(without(left, "cn=free,dc=shop"), "cn=head,dc=shop", entry + "\n"))]
