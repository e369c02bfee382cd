"""Connections beside each other, and adds and deletes one after the other (RFC 4511 4.7 and 4.8): what is answered, and what
is left."""

from messages import BOUND_LINE
from program import Run, Status, test
from steps import with_before

# A suffix, a subentry by which everyone may do all with entries below, and one such entry.
SITE = """\
dn: dc=w
objectClass: domain
dc: w
administrativeRole: autonomousArea

dn: cn=d,dc=w
objectClass: device
cn: d

dn: cn=o,dc=w
objectClass: subentry
objectClass: accessControlSubentry
cn: o
subtreeSpecification: { }
prescriptiveACI: { identificationTag "o", precedence 0, authenticationLevel none, itemOrUserFirst userFirst: {
  userClasses { allUsers }, userPermissions { { protectedItems { entry, allUserAttributeTypesAndValues },
  grantsAndDenials { grantAdd, grantDiscloseOnError, grantRead, grantRemove, grantBrowse, grantReturnDN,
  grantFilterMatch } } } } }
"""

# What is sent one after the other on one connection, and the answer.
EXCHANGES = [
    # there is no such entry
    ("300e0201014a09636e3d652c64633d77", "30100201016b0b0a0120040464633d770400"),
    # an entry is added, and is there already
    (
        "302b02010268260409636e3d652c64633d7730193017040b6f626a656374436c61737331080406646576696365",
        "300c02010269070a010004000400",
    ),
    (
        "302b02010368260409434e3d452c64633d7730193017040b6f626a656374436c61737331080406646576696365",
        "300c02010369070a014404000400",
    ),
    # the suffix stays
    ("30090201044a0464633d77", "300c0201046b070a013504000400"),
    # a control that is unknown and critical
    ("301c0201054a09636e3d652c64633d77a00c300a0405312e322e330101ff", "300c0201056b070a010c04000400"),
    # the entry is deleted, and is gone
    ("300e0201064a09636e3d652c64633d77", "300c0201066b070a010004000400"),
    ("300e0201074a09636e3d652c64633d77", "30100201076b0b0a0120040464633d770400"),
    # a name that is none, and the root
    ("30070201084a02636e", "300c0201086b070a012204000400"),
    ("3022020109681d040030193017040b6f626a656374436c61737331080406646576696365", "300c02010969070a013504000400"),
    # nothing stands above it
    (
        "303002010a682b040e636e3d662c636e3d652c64633d7730193017040b6f626a656374436c61737331080406646576696365",
        "301002010a690b0a0120040464633d770400",
    ),
    # a person without a name
    (
        "302b02010b682604096f753d662c64633d7730193017040b6f626a656374436c61737331080406706572736f6e",
        "300c02010b69070a014104000400",
    ),
    # a subentry that may not be known of
    ("300e02010c4a09636e3d6f2c64633d77", "301002010c6b0b0a0120040464633d770400"),
]

# An add with messageID 2 and a delete with messageID 3, of one entry.
ADD = "302b02010268260409636e3d652c64633d7730193017040b6f626a656374436c61737331080406646576696365"
DELETE = "300e0201034a09636e3d652c64633d77"

# Two connections, of which one binds anonymously and unbinds, and one sends octets that begin no message.
TWO = "open 1\nopen 2\nsend 2 31\nsend 1 300c0201016007\nsend 1 0201030400800030050201024200\n"

# The notice of disconnection (RFC 4511 4.4.1).
NOTICE = "3024020100781f0a0102040004008a16312e332e362e312e342e312e313436362e3230303336"

# How many entries a search of all may be sent at most, and how many are, with the code (RFC 4511 4.5.1.4).
LIMITS = [(0, 2, 0), (1, 1, 4), (2, 2, 0), (3, 2, 0)]


@test
def adds_and_deletes_are_answered_and_made():
    script = "open 1\n" + "".join(f"send 1 {sent}\n" for sent, _answer in EXCHANGES)
    answers = "".join(answer for _sent, answer in EXCHANGES)
    left = SITE.replace("\n ", "")
    return [Run("replay d s --dump", f"1 {answers}\nversion: 1\n\n{left}", "none closes", data=SITE, script=script)]


@test
def one_connection_deletes_what_another_added():
    script = f"open 1\nopen 2\nsend 1 {ADD}\nsend 2 {DELETE}\nsend 1 {ADD}\n"
    added, deleted = "300c02010269070a010004000400", "300c0201036b070a010004000400"
    left = with_before(SITE.replace("\n ", ""), "cn=o,dc=w", "dn: cn=e,dc=w\nobjectClass: device\ncn: e\n")
    return [Run("replay d s --dump", f"1 {added}{added}\n2 {deleted}\nversion: 1\n\n{left}", data=SITE, script=script)]


@test
def each_connection_gets_its_own_answers():
    return [
        Run("replay d s", f"{BOUND_LINE[:-1]} closed\n2 {NOTICE} closed\n", "behind an unbind, and a notice", script=TWO),
        Run("replay d s --turns 4", f"1 -\n2 {NOTICE} closed\n", "a bind that is not whole yet", Status.TURNS_SPENT, script=TWO),
    ]


@test
def a_search_is_answered_within_its_limit():
    names = ["dc=w", "cn=d,dc=w"]
    return [Run("ask d s", "".join(f"\ndn: {name}\n" for name in names[:count]) + f"# 1 {code}\n", f"a limit of {limit}", data=SITE,
                script=f"dn: dc=w\ndo: search\nscope: sub\nlimit: {limit}\nselect: 1.1\n")
            for limit, count, code in LIMITS]
