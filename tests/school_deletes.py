"""Deletes of a school's entries (RFC 4511 4.8)."""

from program import test
from school import ANN, ANYONE, BEN, SCHOOL
from steps import delete, steps, without

# Of each row below: who asks, the request and its answer.
NAMELESS = [
    (ANN, delete("ou"), "34"),
    (ANN, delete("ou=people,"), "34"),
    (ANYONE, delete("=x"), "34"),
    (ANN, delete(""), "53"),
    (ANYONE, delete(""), "53"),
    # a name of two spaces
    (ANYONE, "dn:: ICA=\ndo: delete\n", "53"),
]

ABSENT = [
    (ANN, delete("ou=none,dc=school"), "32 dc=school"),
    (ANYONE, delete("ou=none,dc=school"), "32 dc=school"),
    (ANN, delete("cn=x,ou=none,dc=school"), "32 dc=school"),
    (ANN, delete("dc=other"), "32"),
    (BEN, delete("ou=school"), "32"),
    # the nearest that may be known of
    (ANN, delete("cn=x,cn=chest,ou=cellar,dc=school"), "32 cn=chest,ou=cellar,dc=school"),
    (BEN, delete("cn=x,cn=chest,ou=cellar,dc=school"), "32 dc=school"),
]

NOT_REMOVED = [
    # may be known of, whatever else stands in the way
    (BEN, delete("uid=ann,ou=people,dc=school"), "50"),
    (BEN, delete("ou=people,dc=school"), "50"),
    (BEN, delete("ou=clubs,dc=school"), "50"),
    (BEN, delete("dc=school"), "50"),
    (ANYONE, delete("ou=groups,dc=school"), "50"),
    (ANYONE, delete("cn=chess,ou=clubs,dc=school"), "50"),
    # may not, as where there is none
    (BEN, delete("ou=cellar,dc=school"), "32 dc=school"),
    (BEN, delete("cn=chest,ou=cellar,dc=school"), "32 dc=school"),
    (ANYONE, delete("cn=ball,ou=store,dc=school"), "32 dc=school"),
    (BEN, delete("cn=open,dc=school"), "32 dc=school"),
]

NO_LEAVES = [
    (ANN, delete("dc=school"), "53"),
    (ANN, delete("DC = School"), "53"),
    (ANN, delete("ou=people,dc=school"), "66"),
    (ANN, delete("ou=cellar,dc=school"), "66"),
    (ANN, delete("ou=store,dc=school"), "66"),
    # may be removed, but not known of
    (BEN, delete("ou=store,dc=school"), "32 dc=school"),
]

# Who asks, the name, and the name of the entry that goes.
DONE = [
    (ANN, "uid=ben,ou=people,dc=school", "uid=ben,ou=people,dc=school"),
    (ANN, "UID=Ben , OU=PEOPLE,dc=school", "uid=ben,ou=people,dc=school"),
    (ANN, "cn=chest,ou=cellar,dc=school", "cn=chest,ou=cellar,dc=school"),
    (ANN, "cn=open,dc=school", "cn=open,dc=school"),
    (ANN, "cn=chess,ou=clubs,dc=school", "cn=chess,ou=clubs,dc=school"),
    (BEN, "cn=chess,ou=clubs,dc=school", "cn=chess,ou=clubs,dc=school"),
    (BEN, "cn=ball,ou=store,dc=school", "cn=ball,ou=store,dc=school"),
]


@test
def a_name_that_is_none_names_nothing():
    return [steps(SCHOOL, NAMELESS, "deletes", ANN)]


@test
def where_no_entry_is_the_nearest_above_is_told():
    return [steps(SCHOOL, ABSENT, "deletes", ANN)]


@test
def an_entry_that_may_not_be_removed_is_hidden():
    return [steps(SCHOOL, NOT_REMOVED, "deletes", ANN)]


@test
def neither_the_suffix_nor_what_stands_above_others_goes():
    return [steps(SCHOOL, NO_LEAVES, "deletes", ANN)]


@test
def a_leaf_that_may_be_removed_goes_and_nothing_else():
    return [steps(SCHOOL, [(who, delete(name), "0")], name, ANN, without(SCHOOL, gone)) for who, name, gone in DONE]
