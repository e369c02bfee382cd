"""A shop's data file, and who is in it.

Everyone may know of what is not in the vault. Ann may do all with entries and their user attributes, and with the access
control items and roles. Ben may modify and rename in `ou=people` and in the vault, which he may not know of; of people he
may add and remove numbers and names, know of but not change addresses, change the type of a title but none of its values,
and the values of a description but not its type. Subentries are Ann's by the suffix's subentryACI.
"""

SHOP = """\
dn: dc=shop
objectClass: domain
dc: shop
administrativeRole: autonomousArea
subentryACI: { identificationTag "rules", precedence 10, authenticationLevel simple, itemOrUserFirst
  userFirst: { userClasses { name { "uid=ann,ou=people,dc=shop" } }, userPermissions { { protectedItems {
  entry, attributeType { subtreeSpecification, prescriptiveACI }, allAttributeValues {
  subtreeSpecification, prescriptiveACI }, allUserAttributeTypesAndValues }, grantsAndDenials { grantAdd,
  grantDiscloseOnError, grantRead, grantRemove, grantBrowse, grantModify, grantRename, grantReturnDN,
  grantFilterMatch } } } } }

dn: cn=clerk,dc=shop
objectClass: subentry
objectClass: accessControlSubentry
cn: clerk
subtreeSpecification: { base "ou=people" }
prescriptiveACI: { identificationTag "clerk", precedence 20, authenticationLevel simple, itemOrUserFirst
  userFirst: { userClasses { name { "uid=ben,ou=people,dc=shop" } }, userPermissions { { protectedItems {
  entry }, grantsAndDenials { grantModify, grantRename } }, { protectedItems { attributeType {
  telephoneNumber, cn }, allAttributeValues { telephoneNumber, cn } }, grantsAndDenials { grantAdd,
  grantDiscloseOnError, grantRemove } }, { protectedItems { attributeType { mail }, allAttributeValues { mail
  } }, grantsAndDenials { grantDiscloseOnError } }, { protectedItems { attributeType { title } },
  grantsAndDenials { grantAdd, grantRemove } }, { protectedItems { allAttributeValues { description } },
  grantsAndDenials { grantAdd, grantRemove } } } } }

dn: cn=head,dc=shop
objectClass: subentry
objectClass: accessControlSubentry
cn: head
subtreeSpecification: { }
prescriptiveACI: { identificationTag "head", precedence 30, authenticationLevel simple, itemOrUserFirst
  userFirst: { userClasses { name { "uid=ann,ou=people,dc=shop" } }, userPermissions { { protectedItems {
  entry, attributeType { administrativeRole, entryACI, subentryACI }, allAttributeValues {
  administrativeRole, entryACI, subentryACI }, allUserAttributeTypesAndValues }, grantsAndDenials { grantAdd,
  grantDiscloseOnError, grantRead, grantRemove, grantBrowse, grantModify, grantRename, grantReturnDN,
  grantFilterMatch } } } } }

dn: cn=keys,dc=shop
objectClass: subentry
objectClass: accessControlSubentry
cn: keys
subtreeSpecification: { base "ou=vault" }
prescriptiveACI: { identificationTag "keys", precedence 20, authenticationLevel simple, itemOrUserFirst
  userFirst: { userClasses { name { "uid=ben,ou=people,dc=shop" } }, userPermissions { { protectedItems {
  entry, allUserAttributeTypesAndValues }, grantsAndDenials { grantAdd, grantRemove, grantModify, grantRename
  } } } } }

dn: cn=open,dc=shop
objectClass: subentry
objectClass: accessControlSubentry
cn: open
subtreeSpecification: { specificExclusions { chopBefore:"ou=vault" } }
prescriptiveACI: { identificationTag "open", precedence 10, authenticationLevel none, itemOrUserFirst
  userFirst: { userClasses { allUsers }, userPermissions { { protectedItems { entry }, grantsAndDenials {
  grantBrowse, grantReturnDN, grantDiscloseOnError } } } } }

dn: ou=people,dc=shop
objectClass: organizationalUnit
ou: people

dn: uid=ann,ou=people,dc=shop
objectClass: inetOrgPerson
uid: ann
cn: Ann
sn: A
userPassword: pw

dn: uid=ben,ou=people,dc=shop
objectClass: inetOrgPerson
uid: ben
cn: Ben
cn: Benjamin
sn: B
userPassword: pw
telephoneNumber: +1 555 0101
mail: ben@shop.example
title: Clerk
description: Fast

dn: ou=vault,dc=shop
objectClass: organizationalUnit
ou: vault

dn: cn=box,ou=vault,dc=shop
objectClass: device
cn: box

dn: cn=safe,ou=vault,dc=shop
objectClass: device
cn: safe
"""

# Who may do all, who may do some things, and who may do none.
ANN = "uid=ann,ou=people,dc=shop"
BEN = "uid=ben,ou=people,dc=shop"
ANYONE = ""

# An entry in the vault, and the vault.
BOX = "cn=box,ou=vault,dc=shop"
VAULT = "ou=vault,dc=shop"

# The subentry by which everyone may know of entries.
OPEN = "cn=open,dc=shop"
