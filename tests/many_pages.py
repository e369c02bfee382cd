"""Pages of a search (RFC 2696) of a thousand entries, one behind the other, also where entries come and go between two."""

from pages import entry, page_end, paged, tlv
from program import Run, test

# A suffix, and a subentry by which everyone may find all, put entries in and take them out.
SITE = """\
dn: dc=w
objectClass: domain
dc: w
administrativeRole: autonomousArea

dn: cn=o,dc=w
objectClass: subentry
objectClass: accessControlSubentry
cn: o
subtreeSpecification: { }
prescriptiveACI: { identificationTag "o", precedence 0, authenticationLevel none, itemOrUserFirst userFirst: {
  userClasses { allUsers }, userPermissions { { protectedItems { entry, allUserAttributeTypesAndValues },
  grantsAndDenials { grantAdd, grantRemove, grantRead, grantBrowse, grantReturnDN, grantFilterMatch } } } } }
"""

# The names of the entries below the suffix, and the data file with all of them.
NAMES = [f"cn={number},dc=w" for number in range(1000, 2000)]
CROWD = SITE + "".join(f"\ndn: {name}\nobjectClass: device\n" for name in NAMES)

# A search of the entries immediately below the suffix, without their attributes.
BELOW = "040464633d770a01010a0100020100020100010100870b6f626a656374436c61737330050403312e31"

# The size of a page, as an INTEGER (X.690 8.3).
SIZES = {1: "01", 3: "03", 7: "07", 1000: "03e8"}


def asked(size, cookie):
    """The line that asks for a page of so many entries behind a name."""
    return f"send 1 {tlv('30', '020102' + tlv('63', BELOW) + tlv('a0', paged(SIZES[size], cookie)))}\n"


def page(names):
    """A page of these entries, which has a cookie but where it is the last."""
    return "".join(entry(name) for name in names) + page_end("" if names[-1] == NAMES[-1] else names[-1])


def numbered(*numbers):
    """The names of these numbers."""
    return [f"cn={number},dc=w" for number in numbers]


def delete(number):
    """The line of a delete (RFC 4511 4.8), and its answer."""
    return f"send 1 {tlv('30', '020102' + tlv('4a', NAMES[number - 1000].encode().hex()))}\n", "300c0201026b070a010004000400"


def add(number):
    """The line of an add of a device (RFC 4511 4.7), and its answer."""
    name = tlv("04", NAMES[number - 1000].encode().hex())
    octets = tlv("68", name + "30193017040b6f626a656374436c61737331080406646576696365")
    return f"send 1 {tlv('30', '020102' + octets)}\n", "300c02010269070a010004000400"


def pages_behind(number, numbers):
    """The line that asks for three entries behind one, and the page of these."""
    return asked(3, NAMES[number - 1000]), page(numbered(*numbers))


# One after the other.
STEPS = [
    pages_behind(1002, [1003, 1004, 1005]),
    delete(1005),
    delete(1007),
    # behind an entry that is gone
    pages_behind(1005, [1006, 1008, 1009]),
    add(1007),
    delete(1010),
    # what comes before the cookie is not sent
    pages_behind(1009, [1011, 1012, 1013]),
    add(1010),
    # what comes behind it is
    pages_behind(1009, [1010, 1011, 1012]),
    # an older cookie
    pages_behind(1006, [1007, 1008, 1009]),
]


def run(exchanges, what):
    """The replay of what is sent one after the other on one connection."""
    script, answers = zip(*exchanges)
    return Run("replay d s", f"1 {''.join(answers)}\n", what, data=CROWD, script="open 1\n" + "".join(script))


@test
def pages_of_each_size_join_to_all_entries():
    cut = {size: [NAMES[at:at + size] for at in range(0, 1000, size)] for size in (1, 7, 1000)}
    return [run([(asked(size, before[-1]), page(names)) for before, names in zip([[""], *parts], parts)], f"pages of {size}")
            for size, parts in cut.items()]


@test
def a_page_goes_on_behind_its_cookie_where_entries_come_and_go():
    return [run(STEPS, "entries that come and go")]
