"""Administrative points (X.501 14.3 and 18.5): which items an entry has, explained."""

from program import explained, test

# A suffix that is no point, and points below it.
ISLAND = """\
dn: dc=c
objectClass: domain
dc: c
entryACI: { identificationTag "own", precedence 0, authenticationLevel none, itemOrUserFirst userFirst: {
  userClasses { allUsers }, userPermissions { { protectedItems { entry }, grantsAndDenials { grantRead } } } } }

dn: ou=i,dc=c
objectClass: organizationalUnit
ou: i
administrativeRole: accessControlInnerArea
subentryACI: { identificationTag "subs", precedence 0, authenticationLevel none, itemOrUserFirst userFirst: {
  userClasses { allUsers }, userPermissions { { protectedItems { entry }, grantsAndDenials { grantRead } } } } }

dn: cn=s,ou=i,dc=c
objectClass: subentry
objectClass: accessControlSubentry
cn: s
subtreeSpecification: { }
prescriptiveACI: { identificationTag "in", precedence 0, authenticationLevel none, itemOrUserFirst userFirst: {
  userClasses { allUsers }, userPermissions { { protectedItems { entry }, grantsAndDenials { grantRead } } } } }
entryACI: { identificationTag "its", precedence 0, authenticationLevel none, itemOrUserFirst userFirst: {
  userClasses { allUsers }, userPermissions { { protectedItems { entry }, grantsAndDenials { grantRead } } } } }

dn: ou=p,dc=c
objectClass: organizationalUnit
ou: p
administrativeRole: accessControlSpecificArea

dn: cn=t,ou=p,dc=c
objectClass: subentry
objectClass: accessControlSubentry
cn: t
subtreeSpecification: { }
prescriptiveACI: { identificationTag "open", precedence 0, authenticationLevel none, itemOrUserFirst userFirst:
  { userClasses { allUsers }, userPermissions { { protectedItems { entry }, grantsAndDenials { grantRead } } }
  } }

dn: ou=q,ou=p,dc=c
objectClass: organizationalUnit
ou: q
administrativeRole: accessControlInnerArea
entryACI: { identificationTag "own", precedence 3, authenticationLevel none, itemOrUserFirst userFirst: {
  userClasses { allUsers }, userPermissions { { protectedItems { entry }, grantsAndDenials { denyRead } } } } }

dn: cn=u,ou=q,ou=p,dc=c
objectClass: subentry
objectClass: accessControlSubentry
cn: u
subtreeSpecification: { minimum 1 }
prescriptiveACI: { identificationTag "near", precedence 5, authenticationLevel none, itemOrUserFirst userFirst:
  { userClasses { allUsers }, userPermissions { { protectedItems { entry }, grantsAndDenials { grantRead } } }
  } }

dn: cn=d,ou=q,ou=p,dc=c
objectClass: device
cn: d

dn: ou=r,ou=p,dc=c
objectClass: organizationalUnit
ou: r
administrativeRole: accessControlSpecificArea

dn: cn=e,ou=r,ou=p,dc=c
objectClass: device
cn: e
administrativeRole: 1.2.3
"""

# What is read of the entries.
POINTS = [
    (
        "no point above: the entry's own items alone count",
        "explain d anonymous dc=c entry Read",
        "listed 1\n"
        "users 1\n"
        "item 1\n"
        "permission 1\n"
        "precedence 1\n"
        "class 1\n"
        "explicit 1\n"
        "kept dc=c \"own\" grant\n"
        "granted\n",
    ),
    (
        "and grant no more than they say",
        "explain d anonymous dc=c entry Browse",
        "listed 1\n"
        "users 1\n"
        "item 1\n"
        "permission 0\n"
        "precedence 0\n"
        "class 0\n"
        "explicit 0\n"
        "refused\n",
    ),
    (
        "an inner point with no specific point above",
        "explain d anonymous ou=i,dc=c entry Read",
        "listed 0\n"
        "users 0\n"
        "item 0\n"
        "permission 0\n"
        "precedence 0\n"
        "class 0\n"
        "explicit 0\n"
        "refused\n",
    ),
    (
        "a subentry: the items of its superior for subentries, and its own",
        "explain d anonymous cn=s,ou=i,dc=c entry Read",
        "listed 2\n"
        "users 2\n"
        "item 2\n"
        "permission 2\n"
        "precedence 2\n"
        "class 2\n"
        "explicit 2\n"
        "kept ou=i,dc=c \"subs\" grant\n"
        "kept cn=s,ou=i,dc=c \"its\" grant\n"
        "granted\n",
    ),
    (
        "a subentry under a point that has no items for subentries",
        "explain d anonymous cn=t,ou=p,dc=c entry Read",
        "listed 0\n"
        "users 0\n"
        "item 0\n"
        "permission 0\n"
        "precedence 0\n"
        "class 0\n"
        "explicit 0\n"
        "refused\n",
    ),
    (
        "a specific point",
        "explain d anonymous ou=p,dc=c entry Read",
        "subentry cn=t,ou=p,dc=c\n"
        "listed 1\n"
        "users 1\n"
        "item 1\n"
        "permission 1\n"
        "precedence 1\n"
        "class 1\n"
        "explicit 1\n"
        "kept cn=t,ou=p,dc=c \"open\" grant\n"
        "granted\n",
    ),
    (
        "an inner point below it, whose subentry begins below the point: its own item has the higher precedence",
        "explain d anonymous ou=q,ou=p,dc=c entry Read",
        "subentry cn=t,ou=p,dc=c\n"
        "listed 2\n"
        "users 2\n"
        "item 2\n"
        "permission 2\n"
        "precedence 1\n"
        "class 1\n"
        "explicit 1\n"
        "kept ou=q,ou=p,dc=c \"own\" deny\n"
        "refused\n",
    ),
    (
        "below the inner point: its subentries before those of the specific point",
        "explain d anonymous cn=d,ou=q,ou=p,dc=c entry Read",
        "subentry cn=u,ou=q,ou=p,dc=c\n"
        "subentry cn=t,ou=p,dc=c\n"
        "listed 2\n"
        "users 2\n"
        "item 2\n"
        "permission 2\n"
        "precedence 1\n"
        "class 1\n"
        "explicit 1\n"
        "kept cn=u,ou=q,ou=p,dc=c \"near\" grant\n"
        "granted\n",
    ),
    (
        "a specific point hides those above",
        "explain d anonymous ou=r,ou=p,dc=c entry Read",
        "listed 0\n"
        "users 0\n"
        "item 0\n"
        "permission 0\n"
        "precedence 0\n"
        "class 0\n"
        "explicit 0\n"
        "refused\n",
    ),
    (
        "an administrative role of no effect",
        "explain d anonymous cn=e,ou=r,ou=p,dc=c entry Read",
        "listed 0\n"
        "users 0\n"
        "item 0\n"
        "permission 0\n"
        "precedence 0\n"
        "class 0\n"
        "explicit 0\n"
        "refused\n",
    ),
    ("an entry that is not there", "explain d anonymous cn=e,ou=none,dc=c entry Read", "absent\n"),
]


@test
def each_entry_has_the_items_of_its_points():
    return explained(ISLAND, POINTS)
