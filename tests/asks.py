"""Requests in words: what is printed of their replies, the script of the same, and the first bad line."""

from program import Run, Status, test
from trees import ORGANISATION

# Requests, what is printed of their replies, and what that shows.
ANSWERED = [
    (
        "dn: ou=people,dc=example\n"
        "do: search\n"
        "scope: one\n"
        "filter: (mail=BOB@example.com)\n"
        "select: cn\n"
        "\n"
        "dn:\n"
        "do: whoami\n",
        "\n"
        "dn: uid=bob,ou=people,dc=example\n"
        "cn: Bob\n"
        "# 1 0\n"
        "# 2 0 value=\n",
        "a search by a mail address, and who asks, of nobody",
    ),
    (
        "# nothing\n",
        "",
        "no record asks nothing",
    ),
    (
        "dn: UID=bob,ou=people , dc=example\n"
        "do: bind\n"
        "password: bob1\n"
        "\n"
        "dn:\n"
        "do: whoami\n",
        "# 1 0\n"
        "# 2 0 value=dn:uid=bob,ou=people,dc=example\n",
        "a person says who it is, and is told so by the name as it was read",
    ),
    (
        "dn: uid=bob,ou=people,dc=example\n"
        "do: bind\n"
        "password: bob2\n"
        "\n"
        "dn:\n"
        "do: whoami\n",
        "# 1 49\n"
        "# 2 0 value=\n",
        "a bind with a wrong password leaves nobody",
    ),
    (
        "dn:\n"
        "do: bind\n",
        "# 1 0\n",
        "an empty bind",
    ),
    (
        "dn: dc=example\n"
        "do: search\n"
        "scope: one\n"
        "limit: 2\n"
        "only: types\n"
        "subentries: FALSE\n"
        "filter: (|(ou=lab)(ou=people))\n"
        "select: ou\n"
        "select: objectClass\n",
        "\n"
        "dn: ou=lab,dc=example\n"
        "# objectClass\n"
        "# ou\n"
        "\n"
        "dn: ou=people,dc=example\n"
        "# objectClass\n"
        "# ou\n"
        "# 1 0\n",
        "the lines of a search in their order: one level, two entries at most, the types alone, none but subentries, and all that is chosen",
    ),
    (
        "dn: dc=example\n"
        "do: search\n"
        "scope: sub\n"
        "subentries: TRUE\n",
        "# 1 0\n",
        "subentries, of which nobody sees one",
    ),
    (
        "dn: ou=lab,dc=example\n"
        "do: search\n",
        "\n"
        "dn: ou=lab,dc=example\n"
        "objectClass: organizationalUnit\n"
        "ou: lab\n"
        "# 1 0\n",
        "a search without a line but its word is that of the entry itself",
    ),
    (
        "dn: uid=bob,ou=people,dc=example\n"
        "do: compare\n"
        "sn: b\n"
        "\n"
        "dn: uid=bob,ou=people,dc=example\n"
        "do: compare\n"
        "sn: c\n"
        "\n"
        "dn: uid=eve,ou=vault,ou=secret,dc=example\n"
        "do: compare\n"
        "sn: E\n",
        "# 1 6\n"
        "# 2 5\n"
        "# 3 32 dc=example\n",
        "a compare that is true, one that is false, and one of a name that is hidden",
    ),
    (
        "dn: uid=ada,ou=people,dc=example\n"
        "do: bind\n"
        "password: abc\n"
        "\n"
        "dn: cn=lamp,ou=lab,dc=example\n"
        "do: add\n"
        "objectClass: device\n"
        "cn: lamp\n"
        "description: one\n"
        "description: two\n"
        "\n"
        "dn: cn=lamp,ou=lab,dc=example\n"
        "do: modify\n"
        "delete: description\n"
        "value: one\n"
        "add: l\n"
        "value: hall\n"
        "value: stairs\n"
        "replace: description\n"
        "\n"
        "dn: cn=lamp,ou=lab,dc=example\n"
        "do: rename\n"
        "newrdn: cn=light\n"
        "keep: TRUE\n"
        "\n"
        "dn: cn=light,ou=lab,dc=example\n"
        "do: search\n"
        "\n"
        "dn: cn=light,ou=lab,dc=example\n"
        "do: rename\n"
        "newrdn: cn=light\n"
        "newsuperior: ou=attic,dc=example\n"
        "\n"
        "dn: cn=light,ou=lab,dc=example\n"
        "do: delete\n"
        "\n"
        "dn: cn=light,ou=lab,dc=example\n"
        "do: search\n",
        "# 1 0\n"
        "# 2 0\n"
        "# 3 0\n"
        "# 4 0\n"
        "\n"
        "dn: cn=light,ou=lab,dc=example\n"
        "objectClass: device\n"
        "cn: lamp\n"
        "cn: light\n"
        "l: hall\n"
        "l: stairs\n"
        "# 5 0\n"
        "# 6 50\n"
        "# 7 0\n"
        "# 8 32 ou=lab,dc=example\n",
        "an administrator puts an entry in, changes it, gives it another name, moves none, and takes it out",
    ),
    (
        "dn:\n"
        "do: unbind\n"
        "\n"
        "dn:\n"
        "do: whoami\n",
        "",
        "nothing is answered behind an unbind",
    ),
    (
        "dn: uid=ada,ou=people,dc=example\n"
        "do: bind\n"
        "password: abc\n"
        "\n"
        "dn: cn=lamp,ou=lab,dc=example\n"
        "do: add\n"
        "objectClass: device\n"
        "cn: lamp\n"
        "description:: w6k=\n"
        "\n"
        "dn: cn=lamp,ou=lab,dc=example\n"
        "do: search\n"
        "filter: (description=\\c3\\a9)\n"
        "select: description\n",
        "# 1 0\n"
        "# 2 0\n"
        "\n"
        "dn: cn=lamp,ou=lab,dc=example\n"
        "description:: w6k=\n"
        "# 3 0\n",
        "a value of octets that may not stand as they are",
    ),
]

# Requests, their script, and what that shows.
SCRIPTED = [
    (
        "dn: ou=people,dc=example\n"
        "do: search\n"
        "scope: one\n"
        "filter: (mail=BOB@example.com)\n"
        "select: cn\n"
        "\n"
        "dn:\n"
        "do: whoami\n",
        "open 1\n"
        "send 1 3049020101634404146f753d70656f706c652c64633d6578616d706c650a01010a0100020100020100010100a31704046d61696c040f424f42406578616d706c652e636f6d30040402636e\n"
        "send 1 301e02010277198017312e332e362e312e342e312e343230332e312e31312e33\n",
        "a search, and who asks",
    ),
    (
        "# nothing\n",
        "open 1\n",
        "no record opens a connection alone",
    ),
]

# Requests of which a line may not stand, what is printed, and what that shows.
REFUSED = [
    ("dn: dc=u\nscope: one\ndo: search\n", "bad request line 1\n", "do is not the first line"),
    ("dn: dc=u\ndo: find\n", "bad request line 2\n", "an unknown word"),
    ("dn: dc=u\ndo: Search\n", "bad request line 2\n", "a word in capitals"),
    ("dn: dc=u\ndo: search\nfilter: (cn=a\n", "bad request line 3\n", "a filter that lacks its end"),
    ("dn: dc=u\ndo: search\nfilter: cn=a\n", "bad request line 3\n", "a filter without parentheses"),
    ("dn: dc=u\ndo: search\nscope: two\n", "bad request line 3\n", "a scope that there is not"),
    ("dn: dc=u\ndo: search\nlimit: 2147483648\n", "bad request line 3\n", "a limit past the greatest"),
    ("dn: dc=u\ndo: search\nlimit: 00000000001\n", "bad request line 3\n", "a limit of eleven digits"),
    ("dn: dc=u\ndo: search\nonly: values\n", "bad request line 3\n", "only values"),
    ("dn: dc=u\ndo: search\nsubentries: true\n", "bad request line 3\n", "subentries in small letters"),
    ("dn: dc=u\ndo: search\nlimit: 1\nscope: one\n", "bad request line 4\n", "a scope behind a limit"),
    ("dn: dc=u\ndo: search\nfilter: (cn=a)\nfilter: (cn=a)\n", "bad request line 4\n", "two filters"),
    ("dn: dc=u\ndo: search\nselect: cn\nfilter: (cn=a)\n", "bad request line 4\n", "a filter behind what is chosen"),
    ("dn: dc=u\ndo: search\npassword: a\n", "bad request line 3\n", "a line of another word"),
    ("dn: dc=u\ndo: bind\npassword: a\npassword: b\n", "bad request line 4\n", "two passwords"),
    ("dn: dc=u\ndo: compare\n", "bad request line 2\n", "a compare of nothing"),
    ("dn: dc=u\ndo: compare\ncn: a\ncn: b\n", "bad request line 4\n", "a compare of two"),
    ("dn: dc=u\ndo: add\n", "bad request line 2\n", "an add of nothing"),
    ("dn: dc=u\ndo: modify\n", "bad request line 2\n", "a modify without a group"),
    ("dn: dc=u\ndo: modify\nvalue: a\n", "bad request line 3\n", "a value before a group"),
    ("dn: dc=u\ndo: modify\nadd: c n\n", "bad request line 3\n", "a group of no type"),
    ("dn: dc=u\ndo: modify\nadd: cn\nvalue: a\nincrement: cn\n", "bad request line 5\n", "a group of another word"),
    ("dn: dc=u\ndo: rename\nkeep: TRUE\n", "bad request line 2\n", "a rename without a new name"),
    ("dn: dc=u\ndo: rename\nkeep: TRUE\nnewrdn: cn=a\n", "bad request line 3\n", "what is kept, before the new name"),
    ("dn: dc=u\ndo: rename\nnewrdn: cn=a\nkeep: FALSE\n", "bad request line 4\n", "what is not kept"),
    ("dn: dc=u\ndo: delete\ncn: a\n", "bad request line 3\n", "a delete of a line"),
    ("dn: dc=u\ndo: whoami\n", "bad request line 1\n", "a name for whoami"),
    ("dn: dc=u\ndo: unbind\n", "bad request line 1\n", "a name for unbind"),
    ("dn:\ndo: whoami\ncn: a\n", "bad request line 3\n", "a line for whoami"),
    ("dn:\ndo: whoami\n\n# more\ndn: dc=u\ndo: add\ncn a\n", "bad request line 7\n", "the second record"),
    ("dn: dc=u\n", "bad request line 1\n", "a record of a name alone"),
]


@test
def requests_in_words_are_answered_over_one_connection():
    return [Run("ask d s", put, what, data=ORGANISATION, script=requests) for requests, put, what in ANSWERED]


@test
def requests_in_words_are_put_as_a_script():
    return [Run("ask d s --script", put, what, data=ORGANISATION, script=requests) for requests, put, what in SCRIPTED]


@test
def a_line_that_may_not_stand_in_a_request_is_told():
    return [Run("ask d s", put, what, Status.BAD_SCRIPT, ORGANISATION, requests) for requests, put, what in REFUSED]


@test
def a_data_file_is_refused_before_its_requests():
    return [Run("ask s s", "bad data line 1: syntax\n", status=Status.BAD_DATA, script="nothing\n")]


@test
def requests_of_one_octet_too_many_are_refused_where_it_stands():
    return [Run("ask d s", "bad request line 67108865\n", status=Status.BAD_SCRIPT, script="\n" * 67_108_865)]
