"""Changes that requests in words do not say (RFC 4511 4.6 and 4.7): types without values, entries without attributes,
modifies without changes, and changes of no kind."""

import school
import shop
from pages import tlv
from program import Run, test
from steps import PASSWORD


def string(text):
    """A string."""
    return tlv("04", text.encode().hex())


def kind_values(kind, values):
    """A type with values."""
    return tlv("30", string(kind) + tlv("31", "".join(map(string, values))))


def add(name, *attributes):
    """An add of an entry with these attributes."""
    return tlv("68", string(name) + tlv("30", "".join(kind_values(*attribute) for attribute in attributes)))


def modify(name, *changes):
    """A modify of an entry by these changes, each with the number of its operation."""
    rows = [tlv("30", f"0a01{number:02x}" + kind_values(kind, values)) for number, kind, values in changes]
    return tlv("66", string(name) + tlv("30", "".join(rows)))


# Of each row below: who asks, the request, the code and the matched name.
ADDS = [
    # a type without values, behind a name that is none, and before all else of attributes
    ("", add("=x", ("cn", [])), 34, ""),
    ("", add("", ("cn", [])), 53, ""),
    (school.ANN, add("uid=new,ou=people,dc=school", ("cn", [])), 2, ""),
    (school.ANN, add("uid=new,ou=people,dc=school", ("zz", ["x"]), ("cn", [])), 2, ""),
    ("", add("ou=people,dc=school", ("zz", []), ("cn", ["x"])), 2, ""),
    # no attributes
    (school.ANN, add("uid=new,ou=people,dc=school"), 65, ""),
    (school.BEN, add("OU=People,DC=School"), 68, ""),
    ("", add("ou=store,dc=school"), 32, "dc=school"),
]

MODIFIES = [
    # an operation that there is not, behind a name that is none, and before any type is looked at
    (shop.ANN, modify("ou", (3, "zz", [])), 34, ""),
    (shop.ANN, modify("", (3, "zz", [])), 53, ""),
    (shop.ANN, modify(shop.BEN, (3, "cn", ["x"])), 2, ""),
    ("", modify("ou=none", (127, "cn", ["x"])), 2, ""),
    # no changes
    ("", modify(shop.BOX), 32, "dc=shop"),
    (shop.BEN, modify(shop.BEN), 0, ""),
]


def bare(data, rows, tag):
    """A replay of requests, each behind a bind of who asks, that are answered with this tag, and leave the data file."""
    script, answers = "open 1\n", ""
    for who, request, code, matched in rows:
        bind = tlv("60", "020103" + string(who) + tlv("80", PASSWORD.encode().hex() if who else ""))
        script += f"send 1 {tlv('30', '020101' + bind)}\nsend 1 {tlv('30', '020102' + request)}\n"
        answers += "300c02010161070a010004000400" + tlv("30", "020102" + tlv(tag, f"0a01{code:02x}{string(matched)}0400"))
    left = data.replace("\n ", "")
    return [Run("replay d s --dump", f"1 {answers}\nversion: 1\n\n{left}", data=data, script=script)]


@test
def an_add_of_nothing_is_refused():
    return bare(school.SCHOOL, ADDS, "69")


@test
def a_change_of_no_kind_is_refused_and_none_changes_nothing():
    return bare(shop.SHOP, MODIFIES, "67")
