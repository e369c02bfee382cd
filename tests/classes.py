"""User classes and protected items (X.501 18.4.2), each in an item of its own, explained filter by filter."""

from program import explained, test

# A point with a subentry that has an item for each user class, and groups.
DOORS = """\
dn: dc=g
objectClass: domain
dc: g
administrativeRole: autonomousArea

dn: cn=classes,dc=g
objectClass: subentry
objectClass: accessControlSubentry
cn: classes
subtreeSpecification: { base "ou=doors" }
prescriptiveACI: { identificationTag "all", precedence 1, authenticationLevel none, itemOrUserFirst userFirst:
  { userClasses { allUsers }, userPermissions { { protectedItems { entry }, grantsAndDenials { grantBrowse } }
  } } }
prescriptiveACI: { identificationTag "this", precedence 1, authenticationLevel none, itemOrUserFirst userFirst:
  { userClasses { thisEntry }, userPermissions { { protectedItems { entry }, grantsAndDenials { grantModify } }
  } } }
prescriptiveACI: { identificationTag "name", precedence 1, authenticationLevel none, itemOrUserFirst userFirst:
  { userClasses { name { "uid=a,ou=users,dc=g" } }, userPermissions { { protectedItems { entry },
  grantsAndDenials { grantRename } } } } }
prescriptiveACI: { identificationTag "group", precedence 1, authenticationLevel none, itemOrUserFirst
  userFirst: { userClasses { userGroup { "cn=g,ou=groups,dc=g", "cn=u,ou=groups,dc=g" } }, userPermissions { {
  protectedItems { entry }, grantsAndDenials { grantRemove } } } } }
prescriptiveACI: { identificationTag "nested", precedence 1, authenticationLevel none, itemOrUserFirst
  userFirst: { userClasses { userGroup { "cn=n,ou=groups,dc=g" } }, userPermissions { { protectedItems { entry
  }, grantsAndDenials { grantExport } } } } }
prescriptiveACI: { identificationTag "absent", precedence 1, authenticationLevel none, itemOrUserFirst
  userFirst: { userClasses { userGroup { "cn=none,ou=groups,dc=g" } }, userPermissions { { protectedItems {
  entry }, grantsAndDenials { grantImport } } } } }
prescriptiveACI: { identificationTag "tree", precedence 1, authenticationLevel none, itemOrUserFirst userFirst:
  { userClasses { subtree { { base "ou=users,dc=g", minimum 1 } } }, userPermissions { { protectedItems { entry
  }, grantsAndDenials { grantAdd } } } } }

dn: ou=groups,dc=g
objectClass: organizationalUnit
ou: groups

dn: cn=g,ou=groups,dc=g
objectClass: groupOfNames
cn: g
member: uid=b,ou=users,dc=g

dn: cn=u,ou=groups,dc=g
objectClass: groupOfUniqueNames
cn: u
uniqueMember: uid=d,ou=users,dc=g

dn: cn=n,ou=groups,dc=g
objectClass: groupOfNames
cn: n
member: cn=g,ou=groups,dc=g

dn: ou=doors,dc=g
objectClass: organizationalUnit
ou: doors

dn: cn=x,ou=doors,dc=g
objectClass: device
cn: x
"""

# Who is in which class, each class by the permission of its item.
CLASSES = [
    (
        "all users",
        "explain d anonymous cn=x,ou=doors,dc=g entry Browse",
        "subentry cn=classes,dc=g\n"
        "listed 7\n"
        "users 1\n"
        "item 1\n"
        "permission 1\n"
        "precedence 1\n"
        "class 1\n"
        "explicit 1\n"
        "kept cn=classes,dc=g \"all\" grant\n"
        "granted\n",
    ),
    (
        "an anonymous requester is in no other class",
        "explain d anonymous cn=x,ou=doors,dc=g entry Modify",
        "subentry cn=classes,dc=g\n"
        "listed 7\n"
        "users 1\n"
        "item 1\n"
        "permission 0\n"
        "precedence 0\n"
        "class 0\n"
        "explicit 0\n"
        "refused\n",
    ),
    (
        "this entry",
        "explain d cn=x,ou=doors,dc=g cn=x,ou=doors,dc=g entry Modify",
        "subentry cn=classes,dc=g\n"
        "listed 7\n"
        "users 2\n"
        "item 2\n"
        "permission 1\n"
        "precedence 1\n"
        "class 1\n"
        "explicit 1\n"
        "kept cn=classes,dc=g \"this\" grant\n"
        "granted\n",
    ),
    (
        "this entry is no other entry",
        "explain d cn=x,ou=doors,dc=g ou=doors,dc=g entry Modify",
        "subentry cn=classes,dc=g\n"
        "listed 7\n"
        "users 1\n"
        "item 1\n"
        "permission 0\n"
        "precedence 0\n"
        "class 0\n"
        "explicit 0\n"
        "refused\n",
    ),
    (
        "a user by its name",
        "explain d uid=a,ou=users,dc=g cn=x,ou=doors,dc=g entry Rename",
        "subentry cn=classes,dc=g\n"
        "listed 7\n"
        "users 3\n"
        "item 3\n"
        "permission 1\n"
        "precedence 1\n"
        "class 1\n"
        "explicit 1\n"
        "kept cn=classes,dc=g \"name\" grant\n"
        "granted\n",
    ),
    (
        "a user by its name in another spelling",
        "explain d UID=A,2.5.4.11=Users,DC=G CN=X,OU=Doors,dc=g entry Rename",
        "subentry cn=classes,dc=g\n"
        "listed 7\n"
        "users 3\n"
        "item 3\n"
        "permission 1\n"
        "precedence 1\n"
        "class 1\n"
        "explicit 1\n"
        "kept cn=classes,dc=g \"name\" grant\n"
        "granted\n",
    ),
    (
        "another user",
        "explain d uid=b,ou=users,dc=g cn=x,ou=doors,dc=g entry Rename",
        "subentry cn=classes,dc=g\n"
        "listed 7\n"
        "users 3\n"
        "item 3\n"
        "permission 0\n"
        "precedence 0\n"
        "class 0\n"
        "explicit 0\n"
        "refused\n",
    ),
    (
        "a member of a group",
        "explain d uid=b,ou=users,dc=g cn=x,ou=doors,dc=g entry Remove",
        "subentry cn=classes,dc=g\n"
        "listed 7\n"
        "users 3\n"
        "item 3\n"
        "permission 1\n"
        "precedence 1\n"
        "class 1\n"
        "explicit 1\n"
        "kept cn=classes,dc=g \"group\" grant\n"
        "granted\n",
    ),
    (
        "a member of a group of unique names",
        "explain d uid=d,ou=users,dc=g cn=x,ou=doors,dc=g entry Remove",
        "subentry cn=classes,dc=g\n"
        "listed 7\n"
        "users 3\n"
        "item 3\n"
        "permission 1\n"
        "precedence 1\n"
        "class 1\n"
        "explicit 1\n"
        "kept cn=classes,dc=g \"group\" grant\n"
        "granted\n",
    ),
    (
        "a user who is no member",
        "explain d uid=c,ou=users,dc=g cn=x,ou=doors,dc=g entry Remove",
        "subentry cn=classes,dc=g\n"
        "listed 7\n"
        "users 2\n"
        "item 2\n"
        "permission 0\n"
        "precedence 0\n"
        "class 0\n"
        "explicit 0\n"
        "refused\n",
    ),
    (
        "a member of a group that is a member",
        "explain d uid=b,ou=users,dc=g cn=x,ou=doors,dc=g entry Export",
        "subentry cn=classes,dc=g\n"
        "listed 7\n"
        "users 3\n"
        "item 3\n"
        "permission 0\n"
        "precedence 0\n"
        "class 0\n"
        "explicit 0\n"
        "refused\n",
    ),
    (
        "the group that is a member",
        "explain d cn=g,ou=groups,dc=g cn=x,ou=doors,dc=g entry Export",
        "subentry cn=classes,dc=g\n"
        "listed 7\n"
        "users 2\n"
        "item 2\n"
        "permission 1\n"
        "precedence 1\n"
        "class 1\n"
        "explicit 1\n"
        "kept cn=classes,dc=g \"nested\" grant\n"
        "granted\n",
    ),
    (
        "a group that is not there has no members",
        "explain d uid=a,ou=users,dc=g cn=x,ou=doors,dc=g entry Import",
        "subentry cn=classes,dc=g\n"
        "listed 7\n"
        "users 3\n"
        "item 3\n"
        "permission 0\n"
        "precedence 0\n"
        "class 0\n"
        "explicit 0\n"
        "refused\n",
    ),
    (
        "and is none itself",
        "explain d cn=none,ou=groups,dc=g cn=x,ou=doors,dc=g entry Import",
        "subentry cn=classes,dc=g\n"
        "listed 7\n"
        "users 1\n"
        "item 1\n"
        "permission 0\n"
        "precedence 0\n"
        "class 0\n"
        "explicit 0\n"
        "refused\n",
    ),
    (
        "a user in a subtree",
        "explain d uid=c,ou=users,dc=g cn=x,ou=doors,dc=g entry Add",
        "subentry cn=classes,dc=g\n"
        "listed 7\n"
        "users 2\n"
        "item 2\n"
        "permission 1\n"
        "precedence 1\n"
        "class 1\n"
        "explicit 1\n"
        "kept cn=classes,dc=g \"tree\" grant\n"
        "granted\n",
    ),
    (
        "the base of a subtree that begins below it",
        "explain d ou=users,dc=g cn=x,ou=doors,dc=g entry Add",
        "subentry cn=classes,dc=g\n"
        "listed 7\n"
        "users 1\n"
        "item 1\n"
        "permission 0\n"
        "precedence 0\n"
        "class 0\n"
        "explicit 0\n"
        "refused\n",
    ),
    (
        "an anonymous requester is in no subtree",
        "explain d anonymous cn=x,ou=doors,dc=g entry Add",
        "subentry cn=classes,dc=g\n"
        "listed 7\n"
        "users 1\n"
        "item 1\n"
        "permission 0\n"
        "precedence 0\n"
        "class 0\n"
        "explicit 0\n"
        "refused\n",
    ),
    (
        "an entry for which no subentry is in force",
        "explain d anonymous ou=groups,dc=g entry Browse",
        "listed 0\n"
        "users 0\n"
        "item 0\n"
        "permission 0\n"
        "precedence 0\n"
        "class 0\n"
        "explicit 0\n"
        "refused\n",
    ),
]

# A point with a subentry that has an item for each kind of protected item.
ITEMS = """\
dn: dc=g
objectClass: domain
dc: g
administrativeRole: autonomousArea

dn: cn=items,dc=g
objectClass: subentry
objectClass: accessControlSubentry
cn: items
subtreeSpecification: { }
prescriptiveACI: { identificationTag "entry", precedence 1, authenticationLevel none, itemOrUserFirst
  userFirst: { userClasses { allUsers }, userPermissions { { protectedItems { entry }, grantsAndDenials {
  grantRead } } } } }
prescriptiveACI: { identificationTag "types", precedence 1, authenticationLevel none, itemOrUserFirst
  userFirst: { userClasses { allUsers }, userPermissions { { protectedItems { allUserAttributeTypes },
  grantsAndDenials { grantRead } } } } }
prescriptiveACI: { identificationTag "type", precedence 1, authenticationLevel none, itemOrUserFirst userFirst:
  { userClasses { allUsers }, userPermissions { { protectedItems { attributeType { cn } }, grantsAndDenials {
  grantRead } } } } }
prescriptiveACI: { identificationTag "values", precedence 1, authenticationLevel none, itemOrUserFirst
  userFirst: { userClasses { allUsers }, userPermissions { { protectedItems { allAttributeValues { cn } },
  grantsAndDenials { grantRead } } } } }
prescriptiveACI: { identificationTag "all", precedence 1, authenticationLevel none, itemOrUserFirst userFirst:
  { userClasses { allUsers }, userPermissions { { protectedItems { allUserAttributeTypesAndValues },
  grantsAndDenials { grantRead } } } } }
prescriptiveACI: { identificationTag "value", precedence 1, authenticationLevel none, itemOrUserFirst
  userFirst: { userClasses { allUsers }, userPermissions { { protectedItems { attributeValue { { type cn, value
  "x" } } }, grantsAndDenials { grantRead } } } } }
prescriptiveACI: { identificationTag "self", precedence 1, authenticationLevel none, itemOrUserFirst userFirst:
  { userClasses { allUsers }, userPermissions { { protectedItems { selfValue { member } }, grantsAndDenials {
  grantRead } } } } }
prescriptiveACI: { identificationTag "role", precedence 1, authenticationLevel none, itemOrUserFirst userFirst:
  { userClasses { allUsers }, userPermissions { { protectedItems { attributeType { administrativeRole } },
  grantsAndDenials { grantRead } } } } }
"""

# Which items cover what is asked for, and which of them name it.
COVERED = [
    (
        "an entry",
        "explain d anonymous dc=g entry Read",
        "subentry cn=items,dc=g\n"
        "listed 8\n"
        "users 8\n"
        "item 1\n"
        "permission 1\n"
        "precedence 1\n"
        "class 1\n"
        "explicit 1\n"
        "kept cn=items,dc=g \"entry\" grant\n"
        "granted\n",
    ),
    (
        "a type: the item that names it counts alone",
        "explain d anonymous dc=g type:cn Read",
        "subentry cn=items,dc=g\n"
        "listed 8\n"
        "users 8\n"
        "item 3\n"
        "permission 3\n"
        "precedence 3\n"
        "class 3\n"
        "explicit 1\n"
        "kept cn=items,dc=g \"type\" grant\n"
        "granted\n",
    ),
    (
        "the same type by its object identifier",
        "explain d anonymous dc=g type:2.5.4.3 Read",
        "subentry cn=items,dc=g\n"
        "listed 8\n"
        "users 8\n"
        "item 3\n"
        "permission 3\n"
        "precedence 3\n"
        "class 3\n"
        "explicit 1\n"
        "kept cn=items,dc=g \"type\" grant\n"
        "granted\n",
    ),
    (
        "a type that no item names: all items that cover it count",
        "explain d anonymous dc=g type:sn Read",
        "subentry cn=items,dc=g\n"
        "listed 8\n"
        "users 8\n"
        "item 2\n"
        "permission 2\n"
        "precedence 2\n"
        "class 2\n"
        "explicit 2\n"
        "kept cn=items,dc=g \"types\" grant\n"
        "kept cn=items,dc=g \"all\" grant\n"
        "granted\n",
    ),
    (
        "an operational type, which an item names",
        "explain d anonymous dc=g type:administrativeRole Read",
        "subentry cn=items,dc=g\n"
        "listed 8\n"
        "users 8\n"
        "item 1\n"
        "permission 1\n"
        "precedence 1\n"
        "class 1\n"
        "explicit 1\n"
        "kept cn=items,dc=g \"role\" grant\n"
        "granted\n",
    ),
    (
        "an operational type that no item names",
        "explain d anonymous dc=g type:entryACI Read",
        "subentry cn=items,dc=g\n"
        "listed 8\n"
        "users 8\n"
        "item 0\n"
        "permission 0\n"
        "precedence 0\n"
        "class 0\n"
        "explicit 0\n"
        "refused\n",
    ),
    (
        "a value: the item that names it counts alone",
        "explain d anonymous dc=g value:cn=x Read",
        "subentry cn=items,dc=g\n"
        "listed 8\n"
        "users 8\n"
        "item 3\n"
        "permission 3\n"
        "precedence 3\n"
        "class 3\n"
        "explicit 1\n"
        "kept cn=items,dc=g \"value\" grant\n"
        "granted\n",
    ),
    (
        "the same value in another spelling",
        "explain d anonymous dc=g value:CN=X Read",
        "subentry cn=items,dc=g\n"
        "listed 8\n"
        "users 8\n"
        "item 3\n"
        "permission 3\n"
        "precedence 3\n"
        "class 3\n"
        "explicit 1\n"
        "kept cn=items,dc=g \"value\" grant\n"
        "granted\n",
    ),
    (
        "another value of the type",
        "explain d anonymous dc=g value:cn=y Read",
        "subentry cn=items,dc=g\n"
        "listed 8\n"
        "users 8\n"
        "item 2\n"
        "permission 2\n"
        "precedence 2\n"
        "class 2\n"
        "explicit 2\n"
        "kept cn=items,dc=g \"values\" grant\n"
        "kept cn=items,dc=g \"all\" grant\n"
        "granted\n",
    ),
    (
        "a value of a type that no item names",
        "explain d anonymous dc=g value:sn=x Read",
        "subentry cn=items,dc=g\n"
        "listed 8\n"
        "users 8\n"
        "item 1\n"
        "permission 1\n"
        "precedence 1\n"
        "class 1\n"
        "explicit 1\n"
        "kept cn=items,dc=g \"all\" grant\n"
        "granted\n",
    ),
    (
        "a value of an operational type",
        "explain d anonymous dc=g value:administrativeRole=autonomousArea Read",
        "subentry cn=items,dc=g\n"
        "listed 8\n"
        "users 8\n"
        "item 0\n"
        "permission 0\n"
        "precedence 0\n"
        "class 0\n"
        "explicit 0\n"
        "refused\n",
    ),
    (
        "a value that is the requester's own name",
        "explain d cn=m,dc=g dc=g value:member=cn=m,dc=g Read",
        "subentry cn=items,dc=g\n"
        "listed 8\n"
        "users 8\n"
        "item 2\n"
        "permission 2\n"
        "precedence 2\n"
        "class 2\n"
        "explicit 1\n"
        "kept cn=items,dc=g \"self\" grant\n"
        "granted\n",
    ),
    (
        "the same in another spelling",
        "explain d cn=m,dc=g dc=g value:member=CN=M,DC=G Read",
        "subentry cn=items,dc=g\n"
        "listed 8\n"
        "users 8\n"
        "item 2\n"
        "permission 2\n"
        "precedence 2\n"
        "class 2\n"
        "explicit 1\n"
        "kept cn=items,dc=g \"self\" grant\n"
        "granted\n",
    ),
    (
        "a value that is another name",
        "explain d cn=n,dc=g dc=g value:member=cn=m,dc=g Read",
        "subentry cn=items,dc=g\n"
        "listed 8\n"
        "users 8\n"
        "item 1\n"
        "permission 1\n"
        "precedence 1\n"
        "class 1\n"
        "explicit 1\n"
        "kept cn=items,dc=g \"all\" grant\n"
        "granted\n",
    ),
    (
        "the requester's own name as a value of another type",
        "explain d cn=m,dc=g dc=g value:owner=cn=m,dc=g Read",
        "subentry cn=items,dc=g\n"
        "listed 8\n"
        "users 8\n"
        "item 1\n"
        "permission 1\n"
        "precedence 1\n"
        "class 1\n"
        "explicit 1\n"
        "kept cn=items,dc=g \"all\" grant\n"
        "granted\n",
    ),
    (
        "an anonymous requester has no name",
        "explain d anonymous dc=g value:member=cn=m,dc=g Read",
        "subentry cn=items,dc=g\n"
        "listed 8\n"
        "users 8\n"
        "item 1\n"
        "permission 1\n"
        "precedence 1\n"
        "class 1\n"
        "explicit 1\n"
        "kept cn=items,dc=g \"all\" grant\n"
        "granted\n",
    ),
    (
        "another permission",
        "explain d anonymous dc=g type:cn Browse",
        "subentry cn=items,dc=g\n"
        "listed 8\n"
        "users 8\n"
        "item 3\n"
        "permission 0\n"
        "precedence 0\n"
        "class 0\n"
        "explicit 0\n"
        "refused\n",
    ),
]


@test
def each_user_class_takes_in_whom_it_says():
    return explained(DOORS, CLASSES)


@test
def each_protected_item_covers_what_it_says():
    return explained(ITEMS, COVERED)
