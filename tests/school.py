"""A school's data file, and who is in it.

Everyone may know of what is in neither the store nor the cellar. The office, which is Ann, may add and remove all with user
attributes and read the rest, and may add and remove subentries by the suffix's subentryACI. Who authenticates may add and
remove groups of the clubs that have no other member and no description. Ben may add and remove in the store, which he may
not know of, and may add attributes of people, but no people.
"""

SCHOOL = """\
dn: dc=school
objectClass: domain
dc: school
administrativeRole: accessControlSpecificArea
subentryACI: { identificationTag "rules", precedence 10, authenticationLevel simple, itemOrUserFirst
  userFirst: { userClasses { userGroup { "cn=office,ou=groups,dc=school" } }, userPermissions { {
  protectedItems { entry, attributeType { objectClass, cn, subtreeSpecification, prescriptiveACI },
  allAttributeValues { objectClass, cn, subtreeSpecification, prescriptiveACI } }, grantsAndDenials {
  grantAdd, grantRead, grantRemove, grantBrowse, grantReturnDN, grantFilterMatch } } } } }

dn: cn=clubs,dc=school
objectClass: subentry
objectClass: accessControlSubentry
cn: clubs
subtreeSpecification: { base "ou=clubs", minimum 1 }
prescriptiveACI: { identificationTag "clubs", precedence 20, authenticationLevel simple, itemOrUserFirst
  userFirst: { userClasses { allUsers }, userPermissions { { protectedItems { entry, attributeType {
  objectClass, cn, member }, allAttributeValues { objectClass, cn }, selfValue { member } },
  grantsAndDenials { grantAdd, grantRemove } } } } }

dn: cn=office,dc=school
objectClass: subentry
objectClass: accessControlSubentry
cn: office
subtreeSpecification: { }
prescriptiveACI: { identificationTag "office", precedence 30, authenticationLevel simple, itemOrUserFirst
  userFirst: { userClasses { userGroup { "cn=office,ou=groups,dc=school" } }, userPermissions { {
  protectedItems { entry, allUserAttributeTypesAndValues }, grantsAndDenials { grantAdd,
  grantDiscloseOnError, grantRead, grantRemove, grantBrowse, grantReturnDN, grantFilterMatch } }, {
  protectedItems { attributeType { administrativeRole, subentryACI }, allAttributeValues {
  administrativeRole, subentryACI } }, grantsAndDenials { grantRead } } } } }

dn: cn=open,dc=school
objectClass: subentry
objectClass: accessControlSubentry
cn: open
subtreeSpecification: { specificExclusions { chopBefore:"ou=store", chopBefore:"ou=cellar" } }
prescriptiveACI: { identificationTag "open", precedence 10, authenticationLevel none, itemOrUserFirst
  userFirst: { userClasses { allUsers }, userPermissions { { protectedItems { entry }, grantsAndDenials {
  grantBrowse, grantReturnDN, grantDiscloseOnError } } } } }

dn: cn=parts,dc=school
objectClass: subentry
objectClass: accessControlSubentry
cn: parts
subtreeSpecification: { base "ou=people" }
prescriptiveACI: { identificationTag "parts", precedence 20, authenticationLevel simple, itemOrUserFirst
  userFirst: { userClasses { name { "uid=ben,ou=people,dc=school" } }, userPermissions { { protectedItems {
  attributeType { entryACI }, allAttributeValues { entryACI }, allUserAttributeTypesAndValues },
  grantsAndDenials { grantAdd } } } } }

dn: cn=store,dc=school
objectClass: subentry
objectClass: accessControlSubentry
cn: store
subtreeSpecification: { base "ou=store" }
prescriptiveACI: { identificationTag "store", precedence 20, authenticationLevel simple, itemOrUserFirst
  userFirst: { userClasses { name { "uid=ben,ou=people,dc=school" } }, userPermissions { { protectedItems {
  entry, allUserAttributeTypesAndValues }, grantsAndDenials { grantAdd, grantRemove } } } } }

dn: ou=cellar,dc=school
objectClass: organizationalUnit
ou: cellar

dn: cn=chest,ou=cellar,dc=school
objectClass: device
cn: chest

dn: ou=clubs,dc=school
objectClass: organizationalUnit
ou: clubs

dn: cn=chess,ou=clubs,dc=school
objectClass: groupOfNames
cn: chess
member: uid=ann,ou=people,dc=school

dn: ou=groups,dc=school
objectClass: organizationalUnit
ou: groups

dn: cn=office,ou=groups,dc=school
objectClass: groupOfNames
cn: office
member: uid=ann,ou=people,dc=school

dn: ou=people,dc=school
objectClass: organizationalUnit
ou: people

dn: uid=ann,ou=people,dc=school
objectClass: inetOrgPerson
uid: ann
cn: Ann
sn: A
userPassword: pw

dn: uid=ben,ou=people,dc=school
objectClass: inetOrgPerson
uid: ben
cn: Ben
sn: B
userPassword: pw

dn: ou=store,dc=school
objectClass: organizationalUnit
ou: store

dn: cn=ball,ou=store,dc=school
objectClass: device
cn: ball
"""

# Who may do all, who may do some things, and who may do none.
ANN = "uid=ann,ou=people,dc=school"
BEN = "uid=ben,ou=people,dc=school"
ANYONE = ""
