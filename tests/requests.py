"""Requests of each kind, with what is answered and left, and octets that are none (RFC 4511 section 4)."""

from messages import NOTICE_LINE
from opened import opened, sent
from program import Run, replays, test

# The entry of the requests, the same under another name, and as it is added.
A = "dn: cn=a,dc=example\nobjectClass: inetOrgPerson\ncn: a\nsn: b\n"

BOB = """\
dn: uid=bob,dc=example
objectClass: inetOrgPerson
uid: bob
cn: Bob
sn: Berg
mail: bob@example.com
userPassword: bob1
"""

ROOM = "dn: ou=room,dc=example\nobjectClass: organizationalUnit\nou: room\n"
B = "dn: cn=b,dc=example\nobjectClass: inetOrgPerson\ncn: b\nsn: b\n"
ADDED = "dn: cn=a,dc=example\nobjectClass: person\ncn: a\nsn: b\n"

# Bob with the changes of a modify, and in the room.
MODIFIED = """\
dn: uid=bob,dc=example
objectClass: inetOrgPerson
uid: bob
cn: Rob
cn: Bob
sn: Berg
userPassword: bob1
description: d
description: e
"""

MOVED = """\
dn: uid=rob,ou=room,dc=example
objectClass: inetOrgPerson
uid: bob
uid: rob
cn: Bob
sn: Berg
mail: bob@example.com
userPassword: bob1
"""

# What is sent over two entries, what is put, and what that shows.
READ = [
    ("300f020101600a02010304026463800178", "1 300c02010161070a012204000400\n", "a bind with a name that is none"),
    ("300c020101600702017f04008000", "1 300c02010161070a010204000400\n", "a bind of the greatest version"),
    ("300c02010160070201030400a300", "1 300c02010161070a010704000400\n", "a bind by another method"),
    ("300e0201016009020103040080008500", "1 300c02010161070a010004000400\n", "a further component of a bind"),
    ("3006020103500102", "1 -\n", "an abandon"),
    ("3006020103500100", "1 -\n", "an abandon of 0"),
    ("300702010477028000", "1 300c02010478070a010204000400\n", "an extended request without a name"),
    ("300802047fffffff4a00", "1 300f02047fffffff6b070a013504000400\n", "a delete of no name, with the greatest number"),
]

# What is sent, mostly by the clients of OpenLDAP 2.5, the entries before it and behind it, what is put, and what it is.
SENT = [
    (
        "302f020102632a040a64633d6578616d706c650a01000a0100020100020100010100870b6f626a656374436c6173733000",
        [A, BOB],
        [A, BOB],
        "1 303d0201026438040a64633d6578616d706c65302a3017040b6f626a656374436c61737331080406646f6d61696e300f04026463310904076578616d706c65300c02010265070a010004000400\n",
        "ldapsearch -x -b dc=example -s base '(objectClass=*)'",
    ),
    (
        "308180020102637b040a64633d6578616d706c650a01020a0100020105020100010100a052a30a04037569640403626f62a211a40f0402636e3009800141810162820163a131a5070402736e040161a6070402736e04017aa8070402636e040178a9148108322e352e31332e358202636e8301798401ff300a0402636e04046d61696c",
        [A, BOB],
        [A, BOB],
        "1 3043020102643e04127569643d626f622c64633d6578616d706c653028300b0402636e31050403426f62301904046d61696c3111040f626f62406578616d706c652e636f6d300c02010265070a010004000400\n",
        "ldapsearch -z 5 with each kind of filter, cn mail",
    ),
    (
        "304e0201026649040f636e3d612c64633d6578616d706c65303630170a0100301204046d61696c310a04036140620403634064300b0a010130060402736e3100300e0a010230090402636e3103040178",
        [A, BOB],
        [A, BOB],
        "1 300c02010267070a014304000400\n",
        "ldapmodify: add, delete and replace",
    ),
    (
        "30470201026842040f636e3d612c64633d6578616d706c65302f3017040b6f626a656374436c61737331080406706572736f6e30090402636e310304016130090402736e3103040162",
        [BOB],
        [ADDED, BOB],
        "1 300c02010269070a010004000400\n",
        "ldapadd",
    ),
    (
        "30140201024a0f636e3d612c64633d6578616d706c65",
        [A, BOB],
        [BOB],
        "1 300c0201026b070a010004000400\n",
        "ldapdelete",
    ),
    (
        "301f0201026c1a040f636e3d612c64633d6578616d706c650404636e3d620101ff",
        [A, BOB],
        [B, BOB],
        "1 300c0201026d070a010004000400\n",
        "ldapmodrdn -r",
    ),
    (
        "30270201026c22040f636e3d612c64633d6578616d706c650404636e3d62010100800664633d6e6577",
        [A, BOB],
        [A, BOB],
        "1 300c0201026d070a012004000400\n",
        "ldapmodrdn -s dc=new",
    ),
    (
        "301f0201026e1a040f636e3d612c64633d6578616d706c6530070402636e040161",
        [A, BOB],
        [A, BOB],
        "1 300c0201026f070a010604000400\n",
        "ldapcompare",
    ),
    (
        "301e02010277198017312e332e362e312e342e312e343230332e312e31312e33",
        [A],
        [A],
        "1 300e02010278090a0100040004008b00\n",
        "ldapwhoami",
    ),
    (
        "30500201026326040a64633d6578616d706c650a01020a0100020100020100010100a3070402636e0401613000a02330210417312e332e362e312e342e312e343230332e312e31302e310101ff04030101ff",
        [A, BOB],
        [A, BOB],
        "1 300c02010265070a010004000400\n",
        "ldapsearch -E '!subentries=true'",
    ),
    (
        "30500201026326040a64633d6578616d706c650a01020a0100020100020100010100a3070402636e0401613000a02330210416312e322e3834302e3131333535362e312e342e333139040730050201050400",
        [A, BOB],
        [A, BOB],
        "1 304e0201026449040f636e3d612c64633d6578616d706c653036301e040b6f626a656374436c617373310f040d696e65744f7267506572736f6e30090402636e310304016130090402736e3103040162303102010265070a010004000400a02330210416312e322e3834302e3131333535362e312e342e333139040730050201000400\n",
        "ldapsearch -E pr=5",
    ),
    (
        "3022020101601d02010304127569643d626f622c64633d6578616d706c658004626f6231",
        [A, BOB],
        [A, BOB],
        "1 300c02010161070a010004000400\n",
        "ldapsearch -D -w",
    ),
    (
        "30050201034200",
        [A],
        [A],
        "1 - closed\n",
        "each client at its end",
    ),
    (
        "305d020102665804127569643d626f622c64633d6578616d706c653042301a0a01003015040b6465736372697074696f6e3106040164040165300d0a0101300804046d61696c310030150a010230100402636e310a0403526f620403426f62",
        [BOB],
        [MODIFIED],
        "1 300c02010267070a010004000400\n",
        "a modify that adds two values, takes away a type and gives another two values",
    ),
    (
        "30390201026c3404127569643d626f622c64633d6578616d706c6504077569643d726f6201010080126f753d726f6f6d2c64633d6578616d706c65",
        [ROOM, BOB],
        [ROOM, MOVED],
        "1 300c0201026d070a010004000400\n",
        "a rename that keeps the old value, with a new superior",
    ),
]

# Octets that are no request, and what that shows.
NO_REQUESTS = [
    ("30050201026100", "a response"),
    ("30050401014200", "another tag for the number"),
    ("3006020102420100", "an unbind with content"),
    ("30050201025000", "an abandon of nothing"),
    ("30060201025001ff", "an abandon of -1"),
    ("300d02010160080202008004008000", "a bind of version 128"),
    ("300a02010160050201030400", "a bind without a method"),
    ("300c020101600702010380000400", "a bind without a name"),
    ("3019020101631404000a01000a0100020100020100010100870161", "a search without a selection"),
    ("301b020101631604000a01030a01000201000201000101008701613000", "a scope past the last"),
    ("301c020101631704000a01000a0100020100020100010200008701613000", "a BOOLEAN of two octets"),
    ("301b020101631604000a01000a01000201000201000101008709613000", "a filter longer than the search"),
    ("30190201016614040161300f300d0a010030140401613103040162", "an attribute longer than its change"),
    ("301a02010166150401613010300d0a01003008040161310304016200", "a change that is no SEQUENCE"),
    ("3014020101680f040161300a30080401613109040162", "values longer than their attribute"),
    ("30080201016803040161", "an add without attributes"),
    ("300b0201016c06040161040162", "a rename without deleteoldrdn"),
    ("30110201016c0c040161040162010100800563", "a new superior longer than its rename"),
    ("300d0201016e080401613003040162", "a compare without a value"),
    ("30130201016e0e0401613009040162040163040164", "a compare with a third component"),
    ("30080201017703810161", "an extended request without a name"),
    ("300b0201017706800161810361", "a value longer than its extended request"),
    ("300c0201014200a0053003040961", "a control's type longer than the control"),
    ("300c0201014200a0053103040161", "a control that is no SEQUENCE"),
]


@test
def requests_are_read_with_every_component():
    return replays([(sent(octets), put, what) for octets, put, what in READ])


@test
def requests_of_openldap_clients_are_read():
    return [
        Run("replay d s --dump", put + opened(*after), what, data=opened(*before), script=sent(octets))
        for octets, before, after, put, what in SENT
    ]


@test
def other_octets_are_no_request():
    return replays([(sent(octets), NOTICE_LINE, what) for octets, what in NO_REQUESTS])
