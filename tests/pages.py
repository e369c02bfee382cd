"""Pages of a search (RFC 2696) over the organisation: what is sent, where a page ends, and controls that ask for none."""

from program import replays, test
from trees import ORGANISATION, without_hidden_part

# A search of the units immediately below the suffix, for nobody, without attributes, and a search of a hidden base.
UNITS = "040a64633d6578616d706c650a01010a0100020100020100010100a321040b6f626a656374436c61737304126f7267616e697a6174696f6e616c556e69743005" + "0403312e31"
HIDDEN = "04146f753d7365637265742c64633d6578616d706c650a01000a0100020100020100010100870b6f626a656374436c61737330050403312e31"
LAB = "ou=lab,dc=example"


def tlv(tag, content):
    """An element in hexadecimal, with a length below 256 (X.690 8.1.3)."""
    size = len(content) // 2
    return f"{tag}{'' if size < 128 else '81'}{size:02x}{content}"


def paged(size, cookie):
    """A control of pages for so many entries behind a name."""
    value = tlv("30", tlv("02", size) + tlv("04", cookie.encode().hex()))
    return control(tlv("04", value))


def control(value, critical=""):
    """A control of pages with this value, in hexadecimal."""
    return tlv("30", tlv("04", b"1.2.840.113556.1.4.319".hex()) + critical + value)


def search(body, *controls):
    """The script of a search with these controls, and of an anonymous bind behind it."""
    octets = tlv("30", "020102" + tlv("63", body) + tlv("a0", "".join(controls)))
    return f"open 1\nsend 1 {octets}\nsend 1 300c020103600702010304008000\n"


def line(*replies):
    """The line of a replay with these replies, and that of the bind."""
    return "1 " + "".join(replies) + "300c02010361070a010004000400\n"


def entry(name):
    """An entry without attributes."""
    return tlv("30", "020102" + tlv("64", tlv("04", name.encode().hex()) + "3000"))


def page_end(cookie):
    """A search done, with the control of pages."""
    value = tlv("30", "020100" + tlv("04", cookie.encode().hex()))
    return tlv("30", "020102" + "65070a010004000400" + tlv("a0", tlv("30", tlv("04", b"1.2.840.113556.1.4.319".hex()) + tlv("04", value))))


def ended(code, matched=""):
    """A search done with a code and a matched name, without a control."""
    return tlv("30", "020102" + tlv("65", f"0a01{code:02x}" + tlv("04", matched.encode().hex()) + "0400"))


GROUPS, PEOPLE = "ou=groups,dc=example", "ou=people,dc=example"

# The octets in which a first page of two units ends.
FIRST_END = ("304202010265070a010004000400a03430320416312e322e3834302e3131333535362e312e342e333139041830160201000411"
             "6f753d6c61622c64633d6578616d706c65")

PAGES = [
    (search(UNITS, paged("02", "")), line(entry(GROUPS), entry(LAB), FIRST_END), "the first page of two"),
    (search(UNITS, paged("02", LAB)), line(entry(PEOPLE), page_end("")), "the last page has no cookie"),
    (search(UNITS, paged("02", "OU = Lab, dc=EXAMPLE")), line(entry(PEOPLE), page_end("")), "a cookie in another spelling"),
    (search(UNITS, paged("02", "ou=h,dc=example")), line(entry(LAB), entry(PEOPLE), page_end("")), "a cookie that no entry has"),
    (search(UNITS, paged("03", "")), line(entry(GROUPS), entry(LAB), entry(PEOPLE), page_end("")), "as many as there are"),
    (search(UNITS, paged("02", PEOPLE)), line(page_end("")), "nothing behind the cookie"),
    (search(UNITS, paged("00", LAB)), line(page_end("")), "a page of no entries"),
    (search(UNITS, paged("02", "zz")), line(ended(53)), "a cookie that is no name"),
    (search(HIDDEN, paged("02", "")), line(ended(32, "dc=example")), "a base that may not be known of"),
    (search(HIDDEN, paged("02", "ou=z,dc=example")), line(ended(32, "dc=example")), "the same behind a cookie"),
    (search(UNITS, paged("02", ""), paged("02", "")), line(ended(2)), "two controls of pages"),
    (search(UNITS, control("")), line(ended(2)), "a control without a value"),
    (search(UNITS, control("04053003020102")), line(ended(2)), "a value without a cookie"),
    (search(UNITS, control(tlv("04", "300502010204000500"))), line(ended(2)), "octets behind the value"),
    (search(UNITS, control(tlv("04", tlv("30", tlv("02", "02") + tlv("04", ""))), "0101ff")),
     line(entry(GROUPS), entry(LAB), FIRST_END), "a critical control"),
]


@test
def a_page_is_answered_behind_its_cookie():
    return replays(PAGES, ORGANISATION)


@test
def a_hidden_part_changes_no_page():
    return replays(PAGES, without_hidden_part())
