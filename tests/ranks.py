"""Levels, precedences and classes: which items count where several do (X.501 18.8.3 and 18.8.4), explained filter by
filter."""

from program import explained, test

# A point with a subentry whose items stand at each level.
LEVELS = """\
dn: dc=g
objectClass: domain
dc: g
administrativeRole: autonomousArea

dn: cn=levels,dc=g
objectClass: subentry
objectClass: accessControlSubentry
cn: levels
subtreeSpecification: { }
prescriptiveACI: { identificationTag "gn", precedence 1, authenticationLevel none, itemOrUserFirst userFirst: {
  userClasses { allUsers }, userPermissions { { protectedItems { entry }, grantsAndDenials { grantBrowse } } }
  } }
prescriptiveACI: { identificationTag "gs", precedence 1, authenticationLevel simple, itemOrUserFirst userFirst:
  { userClasses { allUsers }, userPermissions { { protectedItems { entry }, grantsAndDenials { grantRead } } }
  } }
prescriptiveACI: { identificationTag "gt", precedence 1, authenticationLevel strong, itemOrUserFirst userFirst:
  { userClasses { allUsers }, userPermissions { { protectedItems { entry }, grantsAndDenials { grantCompare } }
  } } }
prescriptiveACI: { identificationTag "dn", precedence 1, authenticationLevel none, itemOrUserFirst userFirst: {
  userClasses { name { "cn=a" } }, userPermissions { { protectedItems { entry }, grantsAndDenials { denyBrowse
  } } } } }
prescriptiveACI: { identificationTag "ds", precedence 1, authenticationLevel simple, itemOrUserFirst userFirst:
  { userClasses { name { "cn=a" } }, userPermissions { { protectedItems { entry }, grantsAndDenials { denyRead,
  denyBrowse } } } } }
prescriptiveACI: { identificationTag "dt", precedence 1, authenticationLevel strong, itemOrUserFirst userFirst:
  { userClasses { name { "cn=a" } }, userPermissions { { protectedItems { entry }, grantsAndDenials {
  denyExport } } } } }
prescriptiveACI: { identificationTag "ga", precedence 1, authenticationLevel none, itemOrUserFirst userFirst: {
  userClasses { allUsers }, userPermissions { { protectedItems { entry }, grantsAndDenials { grantExport,
  grantImport, grantModify, grantRename } } } } }
prescriptiveACI: { identificationTag "gx", precedence 1, authenticationLevel none, itemOrUserFirst userFirst: {
  userClasses { name { "cn=b" } }, userPermissions { { protectedItems { entry }, grantsAndDenials {
  grantExport, grantImport, grantModify } } } } }
prescriptiveACI: { identificationTag "du", precedence 1, authenticationLevel strong, itemOrUserFirst userFirst:
  { userClasses { userGroup { "cn=none" } }, userPermissions { { protectedItems { entry }, grantsAndDenials {
  denyImport } } } } }
prescriptiveACI: { identificationTag "de", precedence 1, authenticationLevel strong, itemOrUserFirst userFirst:
  { userClasses {  }, userPermissions { { protectedItems { entry }, grantsAndDenials { denyModify } } } } }
prescriptiveACI: { identificationTag "dl", precedence 1, authenticationLevel strong, itemOrUserFirst userFirst:
  { userClasses { userGroup { "cn=none" }, subtree { { } } }, userPermissions { { protectedItems { entry },
  grantsAndDenials { denyRename } } } } }
"""

# What counts at which level.
LEVELLED = [
    (
        "a denial above the level of who asks counts, by the class that it lists",
        "explain d anonymous dc=g entry Browse",
        "subentry cn=levels,dc=g\n"
        "listed 11\n"
        "users 7\n"
        "item 7\n"
        "permission 2\n"
        "precedence 2\n"
        "class 1\n"
        "explicit 1\n"
        "kept cn=levels,dc=g \"ds\" deny\n"
        "refused\n",
    ),
    (
        "denials at two levels of one class",
        "explain d cn=a dc=g entry Browse",
        "subentry cn=levels,dc=g\n"
        "listed 11\n"
        "users 9\n"
        "item 9\n"
        "permission 3\n"
        "precedence 3\n"
        "class 2\n"
        "explicit 2\n"
        "kept cn=levels,dc=g \"dn\" deny\n"
        "kept cn=levels,dc=g \"ds\" deny\n"
        "refused\n",
    ),
    (
        "a grant above the level of who asks does not count, and a denial does",
        "explain d anonymous dc=g entry Read",
        "subentry cn=levels,dc=g\n"
        "listed 11\n"
        "users 7\n"
        "item 7\n"
        "permission 1\n"
        "precedence 1\n"
        "class 1\n"
        "explicit 1\n"
        "kept cn=levels,dc=g \"ds\" deny\n"
        "refused\n",
    ),
    (
        "a grant at the level of who asks",
        "explain d cn=b dc=g entry Read",
        "subentry cn=levels,dc=g\n"
        "listed 11\n"
        "users 8\n"
        "item 8\n"
        "permission 1\n"
        "precedence 1\n"
        "class 1\n"
        "explicit 1\n"
        "kept cn=levels,dc=g \"gs\" grant\n"
        "granted\n",
    ),
    (
        "a denial at the level of who asks, by a more specific class",
        "explain d cn=a dc=g entry Read",
        "subentry cn=levels,dc=g\n"
        "listed 11\n"
        "users 9\n"
        "item 9\n"
        "permission 2\n"
        "precedence 2\n"
        "class 1\n"
        "explicit 1\n"
        "kept cn=levels,dc=g \"ds\" deny\n"
        "refused\n",
    ),
    (
        "a grant at a level that nobody has",
        "explain d cn=a dc=g entry Compare",
        "subentry cn=levels,dc=g\n"
        "listed 11\n"
        "users 9\n"
        "item 9\n"
        "permission 0\n"
        "precedence 0\n"
        "class 0\n"
        "explicit 0\n"
        "refused\n",
    ),
    (
        "a denial at a level that nobody has",
        "explain d anonymous dc=g entry Export",
        "subentry cn=levels,dc=g\n"
        "listed 11\n"
        "users 7\n"
        "item 7\n"
        "permission 2\n"
        "precedence 2\n"
        "class 1\n"
        "explicit 1\n"
        "kept cn=levels,dc=g \"dt\" deny\n"
        "refused\n",
    ),
    (
        "two of one class that count, of which one is such a denial",
        "explain d cn=b dc=g entry Export",
        "subentry cn=levels,dc=g\n"
        "listed 11\n"
        "users 8\n"
        "item 8\n"
        "permission 3\n"
        "precedence 3\n"
        "class 2\n"
        "explicit 2\n"
        "kept cn=levels,dc=g \"dt\" deny\n"
        "kept cn=levels,dc=g \"gx\" grant\n"
        "refused\n",
    ),
    (
        "a denial by its level alone, of a group that is not there, before a grant to all",
        "explain d anonymous dc=g entry Import",
        "subentry cn=levels,dc=g\n"
        "listed 11\n"
        "users 7\n"
        "item 7\n"
        "permission 2\n"
        "precedence 2\n"
        "class 1\n"
        "explicit 1\n"
        "kept cn=levels,dc=g \"du\" deny\n"
        "refused\n",
    ),
    (
        "and behind a grant to a user by its name",
        "explain d cn=b dc=g entry Import",
        "subentry cn=levels,dc=g\n"
        "listed 11\n"
        "users 8\n"
        "item 8\n"
        "permission 3\n"
        "precedence 3\n"
        "class 1\n"
        "explicit 1\n"
        "kept cn=levels,dc=g \"gx\" grant\n"
        "granted\n",
    ),
    (
        "a denial by its level alone that lists no class, beside a grant to all",
        "explain d anonymous dc=g entry Modify",
        "subentry cn=levels,dc=g\n"
        "listed 11\n"
        "users 7\n"
        "item 7\n"
        "permission 2\n"
        "precedence 2\n"
        "class 2\n"
        "explicit 2\n"
        "kept cn=levels,dc=g \"ga\" grant\n"
        "kept cn=levels,dc=g \"de\" deny\n"
        "refused\n",
    ),
    (
        "and behind a grant to a user by its name",
        "explain d cn=b dc=g entry Modify",
        "subentry cn=levels,dc=g\n"
        "listed 11\n"
        "users 8\n"
        "item 8\n"
        "permission 3\n"
        "precedence 3\n"
        "class 1\n"
        "explicit 1\n"
        "kept cn=levels,dc=g \"gx\" grant\n"
        "granted\n",
    ),
    (
        "a denial by its level alone has the most specific class that it lists",
        "explain d anonymous dc=g entry Rename",
        "subentry cn=levels,dc=g\n"
        "listed 11\n"
        "users 7\n"
        "item 7\n"
        "permission 2\n"
        "precedence 2\n"
        "class 1\n"
        "explicit 1\n"
        "kept cn=levels,dc=g \"dl\" deny\n"
        "refused\n",
    ),
]

# A point with a subentry whose items have different precedences and classes.
RANKS = """\
dn: dc=g
objectClass: domain
dc: g
administrativeRole: autonomousArea

dn: cn=ranks,dc=g
objectClass: subentry
objectClass: accessControlSubentry
cn: ranks
subtreeSpecification: { }
prescriptiveACI: { identificationTag "this", precedence 1, authenticationLevel none, itemOrUserFirst userFirst:
  { userClasses { thisEntry }, userPermissions { { protectedItems { entry }, grantsAndDenials { grantBrowse,
  denyRead, grantModify } } } } }
prescriptiveACI: { identificationTag "name", precedence 1, authenticationLevel none, itemOrUserFirst userFirst:
  { userClasses { name { "cn=a,dc=g" } }, userPermissions { { protectedItems { entry }, grantsAndDenials {
  denyBrowse, grantRead } } } } }
prescriptiveACI: { identificationTag "group", precedence 1, authenticationLevel none, itemOrUserFirst
  userFirst: { userClasses { userGroup { "cn=z,dc=g" } }, userPermissions { { protectedItems { entry },
  grantsAndDenials { grantRename, denyRemove, grantExport } } } } }
prescriptiveACI: { identificationTag "tree", precedence 1, authenticationLevel none, itemOrUserFirst userFirst:
  { userClasses { subtree { { } } }, userPermissions { { protectedItems { entry }, grantsAndDenials {
  denyRename, grantRemove, denyModify, denyAdd } } } } }
prescriptiveACI: { identificationTag "all", precedence 1, authenticationLevel none, itemOrUserFirst userFirst:
  { userClasses { allUsers }, userPermissions { { protectedItems { entry }, grantsAndDenials { denyExport,
  grantAdd, grantImport } } } } }
prescriptiveACI: { identificationTag "two", precedence 2, authenticationLevel none, itemOrUserFirst userFirst:
  { userClasses { allUsers }, userPermissions { { protectedItems { entry }, grantsAndDenials { denyImport,
  denyCompare } }, { precedence 7, protectedItems { entry }, grantsAndDenials { grantCompare } } } } }
prescriptiveACI: { identificationTag "high", precedence 5, authenticationLevel none, itemOrUserFirst userFirst:
  { userClasses { allUsers }, userPermissions { { protectedItems { entry }, grantsAndDenials { denyCompare,
  grantImport } } } } }
prescriptiveACI: { identificationTag "mixed", precedence 5, authenticationLevel none, itemOrUserFirst
  userFirst: { userClasses { allUsers, thisEntry }, userPermissions { { precedence 9, protectedItems { entry },
  grantsAndDenials { denyFilterMatch } } } } }
prescriptiveACI: { identificationTag "other", precedence 9, authenticationLevel none, itemOrUserFirst
  userFirst: { userClasses { userGroup { "cn=z,dc=g" } }, userPermissions { { protectedItems { entry },
  grantsAndDenials { grantFilterMatch } } } } }

dn: cn=a,dc=g
objectClass: device
cn: a

dn: cn=z,dc=g
objectClass: groupOfNames
cn: z
member: cn=a,dc=g
member: cn=b,dc=g
"""

# Which of several counts.
RANKED = [
    (
        "a grant to this entry beside a denial by its name",
        "explain d cn=a,dc=g cn=a,dc=g entry Browse",
        "subentry cn=ranks,dc=g\n"
        "listed 16\n"
        "users 16\n"
        "item 16\n"
        "permission 2\n"
        "precedence 2\n"
        "class 2\n"
        "explicit 2\n"
        "kept cn=ranks,dc=g \"this\" grant\n"
        "kept cn=ranks,dc=g \"name\" deny\n"
        "refused\n",
    ),
    (
        "a denial to this entry beside a grant by its name",
        "explain d cn=a,dc=g cn=a,dc=g entry Read",
        "subentry cn=ranks,dc=g\n"
        "listed 16\n"
        "users 16\n"
        "item 16\n"
        "permission 2\n"
        "precedence 2\n"
        "class 2\n"
        "explicit 2\n"
        "kept cn=ranks,dc=g \"this\" deny\n"
        "kept cn=ranks,dc=g \"name\" grant\n"
        "refused\n",
    ),
    (
        "a grant by the name, on another entry",
        "explain d cn=a,dc=g dc=g entry Read",
        "subentry cn=ranks,dc=g\n"
        "listed 16\n"
        "users 14\n"
        "item 14\n"
        "permission 1\n"
        "precedence 1\n"
        "class 1\n"
        "explicit 1\n"
        "kept cn=ranks,dc=g \"name\" grant\n"
        "granted\n",
    ),
    (
        "this entry before a subtree",
        "explain d cn=a,dc=g cn=a,dc=g entry Modify",
        "subentry cn=ranks,dc=g\n"
        "listed 16\n"
        "users 16\n"
        "item 16\n"
        "permission 2\n"
        "precedence 2\n"
        "class 1\n"
        "explicit 1\n"
        "kept cn=ranks,dc=g \"this\" grant\n"
        "granted\n",
    ),
    (
        "a subtree alone",
        "explain d cn=b,dc=g dc=g entry Modify",
        "subentry cn=ranks,dc=g\n"
        "listed 16\n"
        "users 12\n"
        "item 12\n"
        "permission 1\n"
        "precedence 1\n"
        "class 1\n"
        "explicit 1\n"
        "kept cn=ranks,dc=g \"tree\" deny\n"
        "refused\n",
    ),
    (
        "a group's grant before a subtree's denial",
        "explain d cn=b,dc=g dc=g entry Rename",
        "subentry cn=ranks,dc=g\n"
        "listed 16\n"
        "users 12\n"
        "item 12\n"
        "permission 2\n"
        "precedence 2\n"
        "class 1\n"
        "explicit 1\n"
        "kept cn=ranks,dc=g \"group\" grant\n"
        "granted\n",
    ),
    (
        "a group's denial before a subtree's grant",
        "explain d cn=b,dc=g dc=g entry Remove",
        "subentry cn=ranks,dc=g\n"
        "listed 16\n"
        "users 12\n"
        "item 12\n"
        "permission 2\n"
        "precedence 2\n"
        "class 1\n"
        "explicit 1\n"
        "kept cn=ranks,dc=g \"group\" deny\n"
        "refused\n",
    ),
    (
        "a group's grant before all users' denial",
        "explain d cn=b,dc=g dc=g entry Export",
        "subentry cn=ranks,dc=g\n"
        "listed 16\n"
        "users 12\n"
        "item 12\n"
        "permission 2\n"
        "precedence 2\n"
        "class 1\n"
        "explicit 1\n"
        "kept cn=ranks,dc=g \"group\" grant\n"
        "granted\n",
    ),
    (
        "who isn't in the group",
        "explain d cn=c,dc=g dc=g entry Export",
        "subentry cn=ranks,dc=g\n"
        "listed 16\n"
        "users 9\n"
        "item 9\n"
        "permission 1\n"
        "precedence 1\n"
        "class 1\n"
        "explicit 1\n"
        "kept cn=ranks,dc=g \"all\" deny\n"
        "refused\n",
    ),
    (
        "a subtree's denial before all users' grant",
        "explain d cn=c,dc=g dc=g entry Add",
        "subentry cn=ranks,dc=g\n"
        "listed 16\n"
        "users 9\n"
        "item 9\n"
        "permission 2\n"
        "precedence 2\n"
        "class 1\n"
        "explicit 1\n"
        "kept cn=ranks,dc=g \"tree\" deny\n"
        "refused\n",
    ),
    (
        "who is in no subtree",
        "explain d anonymous dc=g entry Add",
        "subentry cn=ranks,dc=g\n"
        "listed 16\n"
        "users 7\n"
        "item 7\n"
        "permission 1\n"
        "precedence 1\n"
        "class 1\n"
        "explicit 1\n"
        "kept cn=ranks,dc=g \"all\" grant\n"
        "granted\n",
    ),
    (
        "the highest of three precedences",
        "explain d anonymous dc=g entry Import",
        "subentry cn=ranks,dc=g\n"
        "listed 16\n"
        "users 7\n"
        "item 7\n"
        "permission 3\n"
        "precedence 1\n"
        "class 1\n"
        "explicit 1\n"
        "kept cn=ranks,dc=g \"high\" grant\n"
        "granted\n",
    ),
    (
        "a precedence of its own within an item",
        "explain d anonymous dc=g entry Compare",
        "subentry cn=ranks,dc=g\n"
        "listed 16\n"
        "users 7\n"
        "item 7\n"
        "permission 3\n"
        "precedence 1\n"
        "class 1\n"
        "explicit 1\n"
        "kept cn=ranks,dc=g \"two\" grant\n"
        "granted\n",
    ),
    (
        "one precedence, and then a group before all users",
        "explain d cn=b,dc=g dc=g entry FilterMatch",
        "subentry cn=ranks,dc=g\n"
        "listed 16\n"
        "users 12\n"
        "item 12\n"
        "permission 2\n"
        "precedence 2\n"
        "class 1\n"
        "explicit 1\n"
        "kept cn=ranks,dc=g \"other\" grant\n"
        "granted\n",
    ),
    (
        "one precedence, and then this entry before a group",
        "explain d cn=a,dc=g cn=a,dc=g entry FilterMatch",
        "subentry cn=ranks,dc=g\n"
        "listed 16\n"
        "users 16\n"
        "item 16\n"
        "permission 2\n"
        "precedence 2\n"
        "class 1\n"
        "explicit 1\n"
        "kept cn=ranks,dc=g \"mixed\" deny\n"
        "refused\n",
    ),
    (
        "the same on another entry",
        "explain d cn=a,dc=g dc=g entry FilterMatch",
        "subentry cn=ranks,dc=g\n"
        "listed 16\n"
        "users 14\n"
        "item 14\n"
        "permission 2\n"
        "precedence 2\n"
        "class 1\n"
        "explicit 1\n"
        "kept cn=ranks,dc=g \"other\" grant\n"
        "granted\n",
    ),
]


@test
def each_level_counts_as_it_should():
    return explained(LEVELS, LEVELLED)


@test
def the_highest_precedence_and_then_the_most_specific_class_counts():
    return explained(RANKS, RANKED)
