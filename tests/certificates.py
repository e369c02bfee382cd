"""Certificates of decisions and tables of rights: what is proved, and how it is verified."""

from program import Run, Status, explained, test
from trees import ORGANISATION

# What a decision of the organisation shows, the words that ask for it, and its certificate.
PROVED = [
    (
        "a refusal: of two grants and a denial one decides",
        "prove d anonymous uid=bob,ou=people,dc=example type:userPassword Read",
        "who anonymous\n"
        "target uid=bob,ou=people,dc=example\n"
        "item type:userPassword\n"
        "permission Read\n"
        "in cn=admins,dc=example\n"
        "in cn=open,dc=example\n"
        "in cn=self,dc=example\n"
        "tuple 0 grant \"admins\"\n"
        "tuple 6 deny \"everyone\"\n"
        "tuple 3 grant \"everyone\"\n"
        "tuple 0 grant \"self\"\n"
        "tuple 0 grant \"self\"\n"
        "refused\n",
    ),
    (
        "a grant to the members of a group, of an entry that one subentry leaves out",
        "prove d uid=ada,ou=people,dc=example ou=attic,dc=example entry Browse",
        "who uid=ada,ou=people,dc=example\n"
        "target ou=attic,dc=example\n"
        "item entry\n"
        "permission Browse\n"
        "in cn=admins,dc=example\n"
        "out cn=open,dc=example\n"
        "out cn=self,dc=example\n"
        "tuple 6 grant \"admins\"\n"
        "granted\n",
    ),
    (
        "an inner area: the subentries of its point and of the point above",
        "prove d uid=bob,ou=people,dc=example uid=lin,ou=lab,dc=example type:telephoneNumber Read",
        "who uid=bob,ou=people,dc=example\n"
        "target uid=lin,ou=lab,dc=example\n"
        "item type:telephoneNumber\n"
        "permission Read\n"
        "in cn=lab,ou=lab,dc=example\n"
        "in cn=admins,dc=example\n"
        "in cn=open,dc=example\n"
        "out cn=self,dc=example\n"
        "tuple 4 deny \"lab\"\n"
        "tuple 6 grant \"lab\"\n"
        "tuple 0 grant \"admins\"\n"
        "tuple 1 deny \"everyone\"\n"
        "tuple 4 grant \"everyone\"\n"
        "granted\n",
    ),
    (
        "a subentry is under no other",
        "prove d anonymous cn=open,dc=example entry Browse",
        "who anonymous\n"
        "target cn=open,dc=example\n"
        "item entry\n"
        "permission Browse\n"
        "refused\n",
    ),
    (
        "names are printed as they were read, and the type as the table spells it",
        "prove d UID=bob,OU=people,DC=example DC=example type:2.5.4.10 Compare",
        "who uid=bob,ou=people,dc=example\n"
        "target dc=example\n"
        "item type:o\n"
        "permission Compare\n"
        "in cn=admins,dc=example\n"
        "in cn=open,dc=example\n"
        "out cn=self,dc=example\n"
        "tuple 0 grant \"admins\"\n"
        "tuple 1 deny \"everyone\"\n"
        "tuple 6 grant \"everyone\"\n"
        "granted\n",
    ),
    (
        "a value with an octet that is escaped",
        "prove d anonymous dc=example value:description=a\\b Read",
        "who anonymous\n"
        "target dc=example\n"
        "item value:description=a\\5cb\n"
        "permission Read\n"
        "in cn=admins,dc=example\n"
        "in cn=open,dc=example\n"
        "out cn=self,dc=example\n"
        "tuple 0 grant \"admins\"\n"
        "tuple 1 deny \"everyone\"\n"
        "tuple 6 grant \"everyone\"\n"
        "granted\n",
    ),
    (
        "a name that no entry has",
        "prove d anonymous ou=none,dc=example entry Read",
        "absent\n",
    ),
]

# What a table of rights shows, the words that ask for it, and the table.
RIGHTS = [
    (
        "what is granted on each of a person's attributes and values, to nobody",
        "rights d anonymous uid=bob,ou=people,dc=example",
        "entry DiscloseOnError Read Browse ReturnDN Compare FilterMatch\n"
        "type objectClass DiscloseOnError Read Browse ReturnDN Compare FilterMatch\n"
        "value objectClass 0 DiscloseOnError Read Browse ReturnDN Compare FilterMatch\n"
        "type uid DiscloseOnError Read Browse ReturnDN Compare FilterMatch\n"
        "value uid 0 DiscloseOnError Read Browse ReturnDN Compare FilterMatch\n"
        "type cn DiscloseOnError Read Browse ReturnDN Compare FilterMatch\n"
        "value cn 0 DiscloseOnError Read Browse ReturnDN Compare FilterMatch\n"
        "type sn DiscloseOnError Read Browse ReturnDN Compare FilterMatch\n"
        "value sn 0 DiscloseOnError Read Browse ReturnDN Compare FilterMatch\n"
        "type mail DiscloseOnError Read Browse ReturnDN Compare FilterMatch\n"
        "value mail 0 DiscloseOnError Read Browse ReturnDN Compare FilterMatch\n"
        "type telephoneNumber DiscloseOnError Read Browse ReturnDN Compare FilterMatch\n"
        "value telephoneNumber 0 DiscloseOnError Read Browse ReturnDN Compare FilterMatch\n"
        "type userPassword Browse ReturnDN\n"
        "value userPassword 0 Browse ReturnDN\n",
    ),
    (
        "and to the person",
        "rights d uid=bob,ou=people,dc=example uid=bob,ou=people,dc=example",
        "entry DiscloseOnError Read Browse Modify ReturnDN Compare FilterMatch\n"
        "type objectClass DiscloseOnError Read Browse ReturnDN Compare FilterMatch\n"
        "value objectClass 0 DiscloseOnError Read Browse ReturnDN Compare FilterMatch\n"
        "type uid DiscloseOnError Read Browse ReturnDN Compare FilterMatch\n"
        "value uid 0 DiscloseOnError Read Browse ReturnDN Compare FilterMatch\n"
        "type cn DiscloseOnError Read Browse ReturnDN Compare FilterMatch\n"
        "value cn 0 DiscloseOnError Read Browse ReturnDN Compare FilterMatch\n"
        "type sn DiscloseOnError Read Browse ReturnDN Compare FilterMatch\n"
        "value sn 0 DiscloseOnError Read Browse ReturnDN Compare FilterMatch\n"
        "type mail DiscloseOnError Read Browse ReturnDN Compare FilterMatch\n"
        "value mail 0 DiscloseOnError Read Browse ReturnDN Compare FilterMatch\n"
        "type telephoneNumber Add DiscloseOnError Read Remove Browse ReturnDN Compare FilterMatch\n"
        "value telephoneNumber 0 Add DiscloseOnError Read Remove Browse ReturnDN Compare FilterMatch\n"
        "type userPassword Browse ReturnDN\n"
        "value userPassword 0 Browse ReturnDN\n",
    ),
    (
        "an entry that nobody may know of",
        "rights d anonymous ou=attic,dc=example",
        "entry\n"
        "type objectClass\n"
        "value objectClass 0\n"
        "type ou\n"
        "value ou 0\n",
    ),
    (
        "a subentry",
        "rights d anonymous cn=lab,ou=lab,dc=example",
        "entry\n"
        "type objectClass\n"
        "value objectClass 0\n"
        "value objectClass 1\n"
        "type cn\n"
        "value cn 0\n"
        "type subtreeSpecification\n"
        "value subtreeSpecification 0\n"
        "type prescriptiveACI\n"
        "value prescriptiveACI 0\n",
    ),
    (
        "a name that no entry has",
        "rights d anonymous ou=none,dc=example",
        "absent\n",
    ),
]

# Certificates, what their verification prints, and what that shows.
ACCEPTED = [
    (
        "who anonymous\n"
        "target uid=bob,ou=people,dc=example\n"
        "item type:userPassword\n"
        "permission Read\n"
        "in cn=admins,dc=example\n"
        "in cn=open,dc=example\n"
        "in cn=self,dc=example\n"
        "tuple 0 grant \"admins\"\n"
        "tuple 6 deny \"everyone\"\n"
        "tuple 3 grant \"everyone\"\n"
        "tuple 0 grant \"self\"\n"
        "tuple 0 grant \"self\"\n"
        "refused\n",
        "valid refused\n",
        "as it was proved",
    ),
    (
        "who uid=ada,ou=people,dc=example\n"
        "target ou=attic,dc=example\n"
        "item entry\n"
        "permission Browse\n"
        "in cn=admins,dc=example\n"
        "out cn=open,dc=example\n"
        "out cn=self,dc=example\n"
        "tuple 6 grant \"admins\"\n"
        "granted\n",
        "valid granted\n",
        "a grant",
    ),
    (
        "who anonymous\n"
        "target UID=Bob, OU=people, DC=example\n"
        "item type:userPassword\n"
        "permission Read\n"
        "in cn=admins,dc=example\n"
        "in CN=Open,dc=example\n"
        "in cn=self,dc=example\n"
        "tuple 0 grant \"admins\"\n"
        "tuple 6 deny \"everyone\"\n"
        "tuple 3 grant \"everyone\"\n"
        "tuple 0 grant \"self\"\n"
        "tuple 0 grant \"self\"\n"
        "refused\n",
        "valid refused\n",
        "names in other spellings",
    ),
    (
        "who anonymous\n"
        "target dc=example\n"
        "item value:description=a\\5cb\n"
        "permission Read\n"
        "in cn=admins,dc=example\n"
        "in cn=open,dc=example\n"
        "out cn=self,dc=example\n"
        "tuple 0 grant \"admins\"\n"
        "tuple 1 deny \"everyone\"\n"
        "tuple 6 grant \"everyone\"\n"
        "granted\n",
        "valid granted\n",
        "of a value with an escaped octet",
    ),
]

# The lines of the first certificate above.
CERTIFICATE = PROVED[0][2].splitlines(keepends=True)

# Changes of its lines by which it is false: how many stay in front, up to how many go, what is put in their place, what
# the verification prints, and what that shows.
FALSE = [
    (0, 1, "who uid=bob,ou=people,dc=example\n", "false line 11\n", "another requester"),
    (0, 1, "who \n", "false line 1\n", "nobody by the empty name, which is written otherwise"),
    (1, 2, "target ou=none,dc=example\n", "false line 2\n", "a target that no entry has"),
    (1, 2, "target \n", "false line 2\n", "the empty name, which no entry has"),
    (1, 2, "target uid=lin,ou=lab,dc=example\n", "false line 5\n", "another target, of which other subentries are told"),
    (2, 3, "item type:USERPASSWORD\n", "false line 3\n", "the type in another spelling"),
    (3, 4, "permission Browse\n", "false line 9\n", "another permission, of which the tuples come elsewhere"),
    (4, 5, "", "false line 5\n", "a subentry that is left out"),
    (4, 5, "in cn=none,dc=example\n", "false line 5\n", "a subentry that is not there"),
    (5, 6, "out cn=open,dc=example\n", "false line 6\n", "a subentry in force that is said not to be"),
    (4, 6, "in cn=open,dc=example\nin cn=admins,dc=example\n", "false line 5\n", "two subentries in another order"),
    (7, 8, "tuple 1 grant \"admins\"\n", "false line 8\n", "a tuple that comes to another filter"),
    (8, 9, "tuple 6 grant \"everyone\"\n", "false line 9\n", "a denial that is said to grant"),
    (8, 9, "tuple 6 deny \"Everyone\"\n", "false line 9\n", "another tag"),
    (7, 9, "tuple 6 deny \"everyone\"\ntuple 0 grant \"admins\"\n", "false line 8\n", "two tuples in another order"),
    (11, 12, "", "false line 12\n", "a tuple that is left out"),
    (12, 12, "tuple 0 grant \"self\"\n", "false line 13\n", "a tuple too many"),
    (12, 13, "granted\n", "false line 13\n", "another outcome"),
]

# Changes by which it is in no form of a certificate.
FORMLESS = [
    (0, 13, "", "bad certificate line 1\n", "no line"),
    (12, 13, "", "bad certificate line 13\n", "the lines before the last"),
    (12, 13, "refused", "bad certificate line 13\n", "a last line without its end"),
    (13, 13, "x\n", "bad certificate line 14\n", "a line behind the last"),
    (13, 13, "x", "bad certificate line 14\n", "an octet behind the last line"),
    (0, 1, "whom anonymous\n", "bad certificate line 1\n", "a first line of another word"),
    (2, 3, "item type:colour\n", "bad certificate line 3\n", "a type that there is not"),
    (2, 3, "item value:cn=a\\b\n", "bad certificate line 3\n", "an octet behind a backslash that is not escaped so"),
    (3, 4, "permission Write\n", "bad certificate line 4\n", "a permission that there is not"),
    (3, 4, "permission read\n", "bad certificate line 4\n", "a permission in small letters"),
    (6, 8, "tuple 0 grant \"admins\"\nin cn=self,dc=example\n", "bad certificate line 8\n", "a subentry behind a tuple"),
    (7, 8, "tuple 7 grant \"admins\"\n", "bad certificate line 8\n", "a number of no filter"),
    (7, 8, "tuple 0 grant admins\n", "bad certificate line 8\n", "a tag without quotation marks"),
    (7, 8, "tuple 0 grant \"admins\n", "bad certificate line 8\n", "a tag that does not end"),
    (7, 8, "tuple 0 allow \"admins\"\n", "bad certificate line 8\n", "an effect that there is not"),
    (12, 13, "denied\n", "bad certificate line 13\n", "an outcome that there is not"),
]


def verified(changes, status):
    """The verifications of the changed certificates."""
    files = ["".join([*CERTIFICATE[:front], text, *CERTIFICATE[gone:]]) for front, gone, text, _put, _what in changes]
    return [Run("verify d s", put, what, status, ORGANISATION, file)
            for file, (_front, _gone, _text, put, what) in zip(files, changes)]


@test
def a_certificate_names_each_subentry_and_each_tuple():
    return explained(ORGANISATION, PROVED)


@test
def a_table_of_rights_has_what_is_granted_on_each_item():
    return explained(ORGANISATION, RIGHTS)


@test
def a_certificate_of_the_tree_is_accepted():
    return [Run("verify d s", put, what, data=ORGANISATION, script=file) for file, put, what in ACCEPTED]


@test
def the_first_false_line_of_a_certificate_is_told():
    return verified(FALSE, Status.NOT_PROVED)


@test
def the_first_line_that_is_out_of_its_form_is_told():
    return verified(FORMLESS, Status.BAD_SCRIPT)


@test
def a_data_file_is_refused_before_its_certificate():
    return [Run("verify s s", "bad data line 1: syntax\n", status=Status.BAD_DATA, script="nothing\n")]


@test
def a_certificate_of_one_octet_too_many_is_refused_where_it_stands():
    return [Run("verify d s", "bad certificate line 67108865\n", status=Status.BAD_SCRIPT, script="\n" * 67_108_865)]
