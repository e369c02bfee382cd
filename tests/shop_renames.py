"""Renames of a shop's entries (RFC 4511 4.9)."""

from program import test
from shop import ANN, ANYONE, BEN, BOX, OPEN, SHOP, VAULT
from steps import rename, steps, with_before, without

# Of each row below: who asks, the request and its answer.
UNREAD = [
    (ANN, rename("ou", "uid=x", keep=True), "34"),
    (ANN, rename(BEN, "uid", keep=True), "34"),
    (ANN, rename(BEN, "", keep=True), "34"),
    (ANN, rename(BEN, "uid=x,uid=y", keep=True), "34"),
    (ANN, rename(BEN, "telephoneNumber=1", keep=True), "34"),
    (ANN, rename(BEN, "uid=x", "ou", keep=True), "34"),
    (ANYONE, rename("", "uid", keep=True), "34"),
    (ANYONE, rename("", "uid=x", "=", keep=True), "34"),
    (ANN, rename("", "uid=x", keep=True), "53"),
    # a name of two spaces
    (ANYONE, "dn:: ICA=\ndo: rename\nnewrdn: uid=x\n", "53"),
]

HIDDEN = [
    (ANN, rename("ou=none,dc=shop", "ou=x", keep=True), "32 dc=shop"),
    # whatever the new superior is: none here may take an entry from where it is
    (ANN, rename(BEN, "uid=x", VAULT, keep=True), "50"),
    (ANN, rename(BEN, "uid=x", "", keep=True), "50"),
    (ANYONE, rename("ou=none,dc=shop", "ou=x", "dc=none", keep=True), "32 dc=shop"),
    (BEN, rename(BOX, "cn=x", "dc=shop", keep=True), "32 dc=shop"),
    (ANYONE, rename(BEN, "uid=x", keep=True), "50"),
    (ANYONE, rename(BOX, "cn=x", keep=True), "32 dc=shop"),
    (BEN, rename("dc=shop", "dc=x", keep=True), "50"),
    (BEN, rename(OPEN, "cn=x", keep=True), "32 dc=shop"),
    (BEN, rename("cn=none,ou=vault,dc=shop", "cn=x", "OU = Vault,dc=shop", keep=True), "32 dc=shop"),
    (ANN, rename("cn=x,cn=none,ou=vault,dc=shop", "cn=x", "cn=none,ou=vault,dc=shop", keep=True), "32 ou=vault,dc=shop"),
]

REFUSED = [
    (ANN, rename("dc=shop", "dc=x", keep=True), "53"),
    (ANN, rename("dc=shop", "dc=x", "", keep=True), "53"),
    (ANN, rename("ou=people,dc=shop", "ou=x", keep=True), "66"),
    (ANN, rename("ou=people,dc=shop", "OU=People", keep=True), "66"),
    # may be renamed, but not known of
    (BEN, rename(VAULT, "ou=x", keep=True), "32 dc=shop"),
    # another entry's name, told to who may know of that entry
    (ANN, rename(BEN, "uid=ann", keep=True), "68"),
    (BEN, rename(BEN, "UID=Ann", keep=True), "68"),
    (ANN, rename(BOX, "cn=safe", keep=True), "68"),
    (BEN, rename(BOX, "cn=safe", keep=True), "50"),
    # the rules
    (ANN, rename(BEN, "serialNumber=1", keep=True), "65"),
    (ANN, rename(OPEN, "ou=x"), "65"),
]

# Lines of Ben's entry: those of his name, and those behind them.
NAMED = "uid: ben\ncn: Ben\ncn: Benjamin\n"
REST = """\
sn: B
userPassword: pw
telephoneNumber: +1 555 0101
mail: ben@shop.example
title: Clerk
description: Fast
"""

# Who asks, the rename of Ben's entry, its new name, the lines of it, and the name of the entry that stands behind it.
PEOPLE = [
    (BEN, rename(BEN, "uid=rob", keep=True), "uid=rob", "uid: ben\nuid: rob\ncn: Ben\ncn: Benjamin\n", VAULT),
    # the new value comes before the old one goes
    (BEN, rename(BEN, "uid=rob"), "uid=rob", "uid: rob\ncn: Ben\ncn: Benjamin\n", VAULT),
    (ANN, rename(BEN, "cn=Ben"), "cn=Ben", "cn: Ben\ncn: Benjamin\n", ANN),
    (ANN, rename(BEN, "cn=Bert"), "cn=Bert", "cn: Ben\ncn: Benjamin\ncn: Bert\n", ANN),
    # the same name in another spelling
    (BEN, rename(BEN, "uid=BEN"), "uid=BEN", NAMED, VAULT),
    (BEN, rename("UID=Ben,OU=People,dc=shop", "uid=ben"), "uid=ben", NAMED, VAULT),
    # two values, of which one is the old one
    (BEN, rename(BEN, "uid=ben+cn=benjamin"), "cn=benjamin+uid=ben", NAMED, ANN),
    # the present superior, however it is spelled
    (
        BEN,
        rename(BEN, "uid=x", "OU = PEOPLE , DC=shop", keep=True),
        "uid=x",
        "uid: ben\nuid: x\ncn: Ben\ncn: Benjamin\n",
        VAULT,
    ),
]

# The same of the box, which is a device.
BOXES = [
    (BEN, rename(BOX, "cn=lid"), "dn: cn=lid,ou=vault,dc=shop\nobjectClass: device\ncn: lid\n", "cn=safe,ou=vault,dc=shop"),
    (
        ANN,
        rename(BOX, "serialNumber=7", keep=True),
        "dn: serialNumber=7,ou=vault,dc=shop\nobjectClass: device\ncn: box\nserialNumber: 7\n",
        None,
    ),
]


@test
def a_rename_that_cannot_be_read_is_told_so_whoever_asks():
    return [steps(SHOP, UNREAD, "renames", ANN)]


@test
def an_entry_that_may_not_be_renamed_is_hidden():
    return [steps(SHOP, HIDDEN, "renames", ANN)]


@test
def a_rename_is_refused_by_the_first_row_of_its_table():
    return [steps(SHOP, REFUSED, "renames", ANN)]


@test
def an_entry_that_may_be_renamed_has_its_new_name():
    rows = [(who, request, BEN, f"dn: {rdn},ou=people,dc=shop\nobjectClass: inetOrgPerson\n{lines}{REST}", behind)
            for who, request, rdn, lines, behind in PEOPLE]
    rows += [(who, request, BOX, entry, behind) for who, request, entry, behind in BOXES]
    return [steps(SHOP, [(who, request, "0")], entry, ANN, with_before(without(SHOP, old), behind, entry))
            for who, request, old, entry, behind in rows]
