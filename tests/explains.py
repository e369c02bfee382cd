"""Decisions, explained filter by filter."""

from program import USAGE, Run, Status, test
from trees import ORGANISATION

# What is asked of the organisation, and what is printed.
EXPLAINED = [
    (
        "explain d anonymous uid=bob,ou=people,dc=example type:userPassword Read",
        "subentry cn=admins,dc=example\n"
        "subentry cn=open,dc=example\n"
        "subentry cn=self,dc=example\n"
        "listed 5\n"
        "users 2\n"
        "item 2\n"
        "permission 2\n"
        "precedence 1\n"
        "class 1\n"
        "explicit 1\n"
        "kept cn=open,dc=example \"everyone\" deny\n"
        "refused\n",
    ),
    (
        "explain d uid=bob,ou=people,dc=example uid=lin,ou=lab,dc=example type:telephoneNumber Read",
        "subentry cn=lab,ou=lab,dc=example\n"
        "subentry cn=admins,dc=example\n"
        "subentry cn=open,dc=example\n"
        "listed 5\n"
        "users 4\n"
        "item 3\n"
        "permission 3\n"
        "precedence 3\n"
        "class 1\n"
        "explicit 1\n"
        "kept cn=lab,ou=lab,dc=example \"lab\" grant\n"
        "granted\n",
    ),
    (
        "explain d anonymous uid=lin,ou=lab,dc=example type:telephoneNumber Read",
        "subentry cn=lab,ou=lab,dc=example\n"
        "subentry cn=admins,dc=example\n"
        "subentry cn=open,dc=example\n"
        "listed 5\n"
        "users 3\n"
        "item 2\n"
        "permission 2\n"
        "precedence 2\n"
        "class 2\n"
        "explicit 1\n"
        "kept cn=lab,ou=lab,dc=example \"lab\" deny\n"
        "refused\n",
    ),
    (
        "explain d uid=bob,ou=people,dc=example uid=bob,ou=people,dc=example value:telephoneNumber=123 Add",
        "subentry cn=admins,dc=example\n"
        "subentry cn=open,dc=example\n"
        "subentry cn=self,dc=example\n"
        "listed 5\n"
        "users 4\n"
        "item 2\n"
        "permission 1\n"
        "precedence 1\n"
        "class 1\n"
        "explicit 1\n"
        "kept cn=self,dc=example \"self\" grant\n"
        "granted\n",
    ),
    ("explain d anonymous ou=none,dc=example entry Read", "absent\n"),
    (
        "explain d anonymous cn=open,dc=example entry Browse",
        "listed 0\n"
        "users 0\n"
        "item 0\n"
        "permission 0\n"
        "precedence 0\n"
        "class 0\n"
        "explicit 0\n"
        "refused\n",
    ),
    (
        "explain d anonymous ou=attic,dc=example entry Browse",
        "subentry cn=admins,dc=example\n"
        "listed 1\n"
        "users 0\n"
        "item 0\n"
        "permission 0\n"
        "precedence 0\n"
        "class 0\n"
        "explicit 0\n"
        "refused\n",
    ),
    (
        "explain d uid=ada,ou=people,dc=example ou=attic,dc=example entry Browse",
        "subentry cn=admins,dc=example\n"
        "listed 1\n"
        "users 1\n"
        "item 1\n"
        "permission 1\n"
        "precedence 1\n"
        "class 1\n"
        "explicit 1\n"
        "kept cn=admins,dc=example \"admins\" grant\n"
        "granted\n",
    ),
]

# Words that ask for no decision: one too few, no name, an unknown type, a value that isn't of the syntax, a permission
# that no operation asks for.
NO_QUESTIONS = [
    "explain d anonymous dc=example entry",
    "explain d anonymous dc entry Read",
    "explain d dc dc=example entry Read",
    "explain d anonymous dc=example type:none Read",
    "explain d anonymous dc=example value:objectClass=! Read",
    "explain d anonymous dc=example entry Invoke",
    "explain d anonymous dc=example entry read",
]


@test
def each_decision_is_explained_filter_by_filter():
    return [Run(line, put, data=ORGANISATION) for line, put in EXPLAINED]


@test
def words_that_ask_for_no_decision_get_the_usage():
    return [Run(line, USAGE, status=Status.USAGE, data=ORGANISATION) for line in NO_QUESTIONS]
