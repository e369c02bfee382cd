"""Data files: trees of people, groups, rooms and devices, with the access control items that rule them."""

# Two entries.
TWO_ENTRIES = """\
dn: dc=u
objectClass: domain
dc: u

dn: ou=b,dc=u
objectClass: organizationalUnit
ou:: YQ==
"""

# An organisation with an open part, a hidden part, administrators and a laboratory.
ORGANISATION = """\
version: 1

dn: dc=example
objectClass: top
objectClass: domain
dc: example
administrativeRole: accessControlSpecificArea

dn: cn=open,dc=example
objectClass: subentry
objectClass: accessControlSubentry
cn: open
subtreeSpecification: { specificExclusions { chopBefore:"ou=secret", chopBefore:"ou=attic" } }
prescriptiveACI: { identificationTag "everyone", precedence 10, authenticationLevel none, itemOrUserFirst
  userFirst: { userClasses { allUsers }, userPermissions { { protectedItems { entry,
  allUserAttributeTypesAndValues }, grantsAndDenials { grantBrowse, grantReturnDN, grantRead, grantCompare,
  grantFilterMatch, grantDiscloseOnError } }, { precedence 20, protectedItems { attributeType { userPassword },
  allAttributeValues { userPassword } }, grantsAndDenials { denyRead, denyCompare, denyFilterMatch,
  denyDiscloseOnError } } } } }

dn: cn=self,dc=example
objectClass: subentry
objectClass: accessControlSubentry
cn: self
subtreeSpecification: { base "ou=people", minimum 1, specificationFilter item:inetOrgPerson }
prescriptiveACI: { identificationTag "self", precedence 10, authenticationLevel simple, itemOrUserFirst
  userFirst: { userClasses { thisEntry }, userPermissions { { protectedItems { entry }, grantsAndDenials {
  grantModify } }, { protectedItems { attributeType { telephoneNumber }, allAttributeValues { telephoneNumber }
  }, grantsAndDenials { grantAdd, grantRemove } } } } }

dn: cn=admins,dc=example
objectClass: subentry
objectClass: accessControlSubentry
cn: admins
subtreeSpecification: { }
prescriptiveACI: { identificationTag "admins", precedence 30, authenticationLevel simple, itemOrUserFirst
  userFirst: { userClasses { userGroup { "cn=admins,ou=groups,dc=example" } }, userPermissions { {
  protectedItems { entry, allUserAttributeTypesAndValues }, grantsAndDenials { grantAdd, grantDiscloseOnError,
  grantRead, grantRemove, grantBrowse, grantModify, grantRename, grantReturnDN, grantCompare, grantFilterMatch
  } } } } }

dn: ou=groups,dc=example
objectClass: organizationalUnit
ou: groups

dn: cn=admins,ou=groups,dc=example
objectClass: groupOfNames
cn: admins
member: uid=ada,ou=people,dc=example

dn: cn=staff,ou=groups,dc=example
objectClass: groupOfNames
cn: staff
member: uid=bob,ou=people,dc=example

dn: ou=people,dc=example
objectClass: organizationalUnit
ou: people

dn: uid=ada,ou=people,dc=example
objectClass: inetOrgPerson
uid: ada
cn: Ada
sn: A
userPassword: {SHA256}ungWv48Bz+pBQUDeXa4iI7ADYaOWF3qctBD/YfIAFa0=

dn: uid=bob,ou=people,dc=example
objectClass: inetOrgPerson
uid: bob
cn: Bob
sn: B
mail: bob@example.com
telephoneNumber: +1 555 0100
userPassword: bob1

dn: ou=lab,dc=example
objectClass: organizationalUnit
ou: lab
administrativeRole: accessControlInnerArea

dn: cn=lab,ou=lab,dc=example
objectClass: subentry
objectClass: accessControlSubentry
cn: lab
subtreeSpecification: { }
prescriptiveACI: { identificationTag "lab", precedence 10, authenticationLevel none, itemOrUserFirst itemFirst:
  { protectedItems { attributeType { telephoneNumber }, allAttributeValues { telephoneNumber } },
  itemPermissions { { userClasses { allUsers }, grantsAndDenials { denyRead } }, { userClasses { userGroup {
  "cn=staff,ou=groups,dc=example" } }, grantsAndDenials { grantRead } } } } }

dn: uid=lin,ou=lab,dc=example
objectClass: inetOrgPerson
uid: lin
cn: Lin
sn: L
telephoneNumber: +1 555 0300

dn: ou=attic,dc=example
objectClass: organizationalUnit
ou: attic

dn: ou=secret,dc=example
objectClass: organizationalUnit
ou: secret

dn: ou=vault,ou=secret,dc=example
objectClass: organizationalUnit
ou: vault

dn: uid=eve,ou=vault,ou=secret,dc=example
objectClass: inetOrgPerson
uid: eve
cn: Eve
sn: E
"""

# A point with one subentry.
ONE_SUBENTRY = """\
dn: dc=u
objectClass: domain
dc: u
administrativeRole: autonomousArea

dn: ou=b,dc=u
objectClass: organizationalUnit

dn: cn=s,dc=u
objectClass: subentry
objectClass: accessControlSubentry
cn: s
subtreeSpecification: { base "ou=b" }
"""

# A suffix with an item for subentries, and one subentry.
POINT = """\
dn: dc=t
objectClass: domain
dc: t
administrativeRole: autonomousArea
subentryACI: { identificationTag "s", precedence 0, authenticationLevel none, itemOrUserFirst userFirst: {
  userClasses { allUsers }, userPermissions { { protectedItems { entry }, grantsAndDenials { grantRemove } } }
  } }

dn: cn=a,dc=t
objectClass: subentry
objectClass: accessControlSubentry
cn: a
subtreeSpecification: { }
prescriptiveACI: { identificationTag "a", precedence 0, authenticationLevel none, itemOrUserFirst userFirst: {
  userClasses { allUsers }, userPermissions { { protectedItems { entry, allUserAttributeTypesAndValues },
  grantsAndDenials { grantBrowse, grantReturnDN, grantRead, grantFilterMatch, grantDiscloseOnError } } } } }
"""

# A point with two subentries, one of which has a filter.
TWO_SUBENTRIES = """\
dn: dc=v
objectClass: domain
dc: v
administrativeRole: autonomousArea

dn: cn=f,dc=v
objectClass: subentry
objectClass: accessControlSubentry
cn: f
subtreeSpecification: { specificationFilter item:uidObject }
prescriptiveACI: { identificationTag "f", precedence 9, authenticationLevel none, itemOrUserFirst userFirst: {
  userClasses { allUsers }, userPermissions { { protectedItems { entry }, grantsAndDenials { denyBrowse,
  denyDiscloseOnError } } } } }

dn: cn=o,dc=v
objectClass: subentry
objectClass: accessControlSubentry
cn: o
subtreeSpecification: { }
prescriptiveACI: { identificationTag "o", precedence 0, authenticationLevel none, itemOrUserFirst userFirst: {
  userClasses { allUsers }, userPermissions { { protectedItems { entry, allUserAttributeTypesAndValues },
  grantsAndDenials { grantAdd, grantDiscloseOnError, grantRead, grantRemove, grantBrowse, grantModify,
  grantRename, grantReturnDN, grantCompare, grantFilterMatch } } } } }

dn: cn=d,dc=v
objectClass: device
cn: d
"""

# A point with rooms, of which one may not be browsed and one not be named, three subentries, and an inner point with a
# room and a subentry.
ROOMS = """\
dn: dc=r
objectClass: domain
dc: r
description: rooms
administrativeRole: autonomousArea
subentryACI: { identificationTag "subs", precedence 0, authenticationLevel none, itemOrUserFirst userFirst: {
  userClasses { allUsers }, userPermissions { { protectedItems { entry, allUserAttributeTypesAndValues },
  grantsAndDenials { grantBrowse, grantReturnDN, grantRead, grantCompare, grantFilterMatch,
  grantDiscloseOnError } } } } }

dn: cn=all,dc=r
objectClass: subentry
objectClass: accessControlSubentry
cn: all
subtreeSpecification: { }
prescriptiveACI: { identificationTag "all", precedence 0, authenticationLevel none, itemOrUserFirst userFirst:
  { userClasses { allUsers }, userPermissions { { protectedItems { entry, attributeType { administrativeRole },
  allAttributeValues { administrativeRole }, allUserAttributeTypesAndValues }, grantsAndDenials { grantBrowse,
  grantReturnDN, grantRead, grantCompare, grantFilterMatch, grantDiscloseOnError } } } } }

dn: cn=shut,dc=r
objectClass: subentry
objectClass: accessControlSubentry
cn: shut
subtreeSpecification: { base "cn=c" }
prescriptiveACI: { identificationTag "shut", precedence 10, authenticationLevel none, itemOrUserFirst
  userFirst: { userClasses { allUsers }, userPermissions { { protectedItems { entry }, grantsAndDenials {
  denyBrowse } } } } }

dn: cn=veil,dc=r
objectClass: subentry
objectClass: accessControlSubentry
cn: veil
subtreeSpecification: { base "cn=d" }
prescriptiveACI: { identificationTag "veil", precedence 10, authenticationLevel none, itemOrUserFirst
  userFirst: { userClasses { allUsers }, userPermissions { { protectedItems { entry }, grantsAndDenials {
  denyReturnDN } } } } }

dn: cn=a,dc=r
objectClass: device
cn: a

dn: cn=b,dc=r
objectClass: device
cn: b

dn: cn=c,dc=r
objectClass: device
cn: c

dn: cn=d,dc=r
objectClass: device
cn: d

dn: cn=e,dc=r
objectClass: device
cn: e

dn: ou=i,dc=r
objectClass: organizationalUnit
ou: i
administrativeRole: accessControlInnerArea

dn: cn=in,ou=i,dc=r
objectClass: subentry
objectClass: accessControlSubentry
cn: in
subtreeSpecification: { }
entryACI: { identificationTag "in", precedence 0, authenticationLevel none, itemOrUserFirst userFirst: {
  userClasses { allUsers }, userPermissions { { protectedItems { entry, allUserAttributeTypesAndValues },
  grantsAndDenials { grantBrowse, grantReturnDN, grantRead, grantCompare, grantFilterMatch,
  grantDiscloseOnError } } } } }

dn: cn=f,ou=i,dc=r
objectClass: device
cn: f
"""


def without_hidden_part(part=""):
    """The organisation with this in place of its hidden part, which stands last."""
    return ORGANISATION.partition("dn: ou=secret")[0] + part
