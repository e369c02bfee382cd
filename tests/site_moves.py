"""Entries that move below another superior (RFC 4511 4.9, X.511 11.4)."""

from program import test
from steps import rename, steps, with_before, without

# Ann may do all with entries, and read them. Bob may take entries from `ou=a` and bring them to `ou=b`, but not rename them;
# Cid may rename what is in `ou=a`, and do no more. Neither may know of an entry.
SITE = """\
dn: dc=m
objectClass: domain
dc: m
administrativeRole: autonomousArea
subentryACI: { identificationTag "rules", precedence 10, authenticationLevel simple, itemOrUserFirst userFirst: {
  userClasses { name { "cn=ann,ou=p,dc=m" } }, userPermissions { { protectedItems { entry, attributeType {
  subtreeSpecification, prescriptiveACI }, allAttributeValues { subtreeSpecification, prescriptiveACI },
  allUserAttributeTypesAndValues }, grantsAndDenials { grantDiscloseOnError, grantRead, grantBrowse, grantExport,
  grantImport, grantRename, grantReturnDN, grantFilterMatch } } } } }

dn: cn=all,dc=m
objectClass: subentry
objectClass: accessControlSubentry
cn: all
subtreeSpecification: { }
prescriptiveACI: { identificationTag "all", precedence 10, authenticationLevel simple, itemOrUserFirst userFirst: {
  userClasses { name { "cn=ann,ou=p,dc=m" } }, userPermissions { { protectedItems { entry, attributeType {
  administrativeRole, subentryACI }, allAttributeValues { administrativeRole, subentryACI },
  allUserAttributeTypesAndValues }, grantsAndDenials { grantDiscloseOnError, grantRead, grantBrowse, grantExport,
  grantImport, grantRename, grantReturnDN, grantFilterMatch } } } } }

dn: cn=in,dc=m
objectClass: subentry
objectClass: accessControlSubentry
cn: in
subtreeSpecification: { base "ou=b" }
prescriptiveACI: { identificationTag "in", precedence 10, authenticationLevel simple, itemOrUserFirst userFirst: {
  userClasses { name { "cn=bob,ou=p,dc=m" } }, userPermissions { { protectedItems { entry }, grantsAndDenials {
  grantImport } } } } }

dn: cn=name,dc=m
objectClass: subentry
objectClass: accessControlSubentry
cn: name
subtreeSpecification: { base "ou=a" }
prescriptiveACI: { identificationTag "name", precedence 10, authenticationLevel simple, itemOrUserFirst userFirst: {
  userClasses { name { "cn=cid,ou=p,dc=m" } }, userPermissions { { protectedItems { entry }, grantsAndDenials {
  grantRename } } } } }

dn: cn=out,dc=m
objectClass: subentry
objectClass: accessControlSubentry
cn: out
subtreeSpecification: { base "ou=a" }
prescriptiveACI: { identificationTag "out", precedence 10, authenticationLevel simple, itemOrUserFirst userFirst: {
  userClasses { name { "cn=bob,ou=p,dc=m" } }, userPermissions { { protectedItems { entry }, grantsAndDenials {
  grantExport } } } } }

dn: ou=a,dc=m
objectClass: organizationalUnit
ou: a

dn: cn=x,ou=a,dc=m
objectClass: device
cn: x

dn: cn=z,ou=a,dc=m
objectClass: device
cn: z

dn: ou=b,dc=m
objectClass: organizationalUnit
ou: b

dn: cn=z,ou=b,dc=m
objectClass: device
cn: z

dn: ou=c,dc=m
objectClass: organizationalUnit
ou: c

dn: ou=p,dc=m
objectClass: organizationalUnit
ou: p

dn: cn=ann,ou=p,dc=m
objectClass: person
cn: ann
sn: A
userPassword: pw

dn: cn=bob,ou=p,dc=m
objectClass: person
cn: bob
sn: B
userPassword: pw

dn: cn=cid,ou=p,dc=m
objectClass: person
cn: cid
sn: C
userPassword: pw
"""

ANN, BOB, CID = "cn=ann,ou=p,dc=m", "cn=bob,ou=p,dc=m", "cn=cid,ou=p,dc=m"
X, Z = "cn=x,ou=a,dc=m", "cn=z,ou=a,dc=m"
A, B, C = "ou=a,dc=m", "ou=b,dc=m", "ou=c,dc=m"

# Who asks, the request and its answer.
REFUSED = [
    # below what is no name, and where a name would have more than 64 RDNs
    (ANN, rename(X, "cn=x", "="), "34"),
    (ANN, rename(X, "cn=x", 63 * "cn=1," + "dc=m"), "34"),
    # an entry that is to get another RDN must be allowed to be renamed, one that moves to be exported
    (BOB, rename(X, "cn=w", B), "32"),
    (BOB, rename(X, "cn=x"), "32"),
    (BOB, rename(X, "cn=x", A), "32"),
    (CID, rename(X, "cn=w", B), "32"),
    (CID, rename(X, "cn=x", B), "32"),
    (ANN, rename("cn=none,ou=a,dc=m", "cn=none", B), "32 ou=a,dc=m"),
    # the suffix, and an entry below itself
    (ANN, rename("dc=m", "dc=m", B), "53"),
    (ANN, rename(X, "cn=x", X), "53"),
    (ANN, rename(X, "cn=x", "CN=X,ou=a,dc=m"), "53"),
    # entries below
    (ANN, rename(A, "ou=a", B), "66"),
    # below what is no entry
    (ANN, rename(X, "cn=x", "ou=none,dc=m"), "32 dc=m"),
    (ANN, rename(X, "cn=x", "cn=w,cn=x,ou=a,dc=m"), "32 cn=x,ou=a,dc=m"),
    (ANN, rename(X, "cn=x", ""), "32"),
    # another entry's name, told to who may know of that entry
    (ANN, rename(Z, "cn=z", B), "68"),
    (BOB, rename(Z, "cn=z", B), "50"),
    # it may not come
    (BOB, rename(X, "cn=x", C), "50"),
    # of a subentry that is decided by what its new superior says of subentries
    (ANN, rename("cn=out,dc=m", "cn=out", B), "50"),
    # the rules
    (ANN, rename(X, "cn=x", "cn=all,dc=m"), "64"),
]

# Who asks, the request, the name of the entry, the entry then, and the name of the one that stands behind it.
DONE = [
    # without leave to rename, where the RDN stays the same, however it is spelled
    (BOB, rename(X, "cn=x", B), X, "dn: cn=x,ou=b,dc=m\nobjectClass: device\ncn: x\n", "cn=z,ou=b,dc=m"),
    (BOB, rename(X, "CN=X", "OU=B , dc=M"), X, "dn: cn=X,ou=b,dc=m\nobjectClass: device\ncn: x\n", "cn=z,ou=b,dc=m"),
    # without leave to export, where it stays
    (CID, rename(X, "cn=w"), X, "dn: cn=w,ou=a,dc=m\nobjectClass: device\ncn: w\n", Z),
    (CID, rename(X, "cn=w", A), X, "dn: cn=w,ou=a,dc=m\nobjectClass: device\ncn: w\n", Z),
    (ANN, rename(X, "cn=w", B), X, "dn: cn=w,ou=b,dc=m\nobjectClass: device\ncn: w\n", "cn=z,ou=b,dc=m"),
    (ANN, rename(X, "cn=x", "dc=m"), X, "dn: cn=x,dc=m\nobjectClass: device\ncn: x\n", A),
    (ANN, rename(C, "ou=d", B), C, "dn: ou=d,ou=b,dc=m\nobjectClass: organizationalUnit\nou: d\n", "ou=p,dc=m"),
]

# One after the other: what is in force for an entry is what is where it stands.
PLACES = [
    (BOB, rename(X, "cn=x", B), "0"),
    # it may not be taken from there
    (BOB, rename("cn=x,ou=b,dc=m", "cn=x", A), "32"),
    (CID, rename("cn=x,ou=b,dc=m", "cn=w"), "32"),
    (BOB, rename(X, "cn=x", B), "32"),
    (ANN, rename("cn=x,ou=b,dc=m", "cn=x", A), "0"),
    (CID, rename(X, "cn=w"), "0"),
    (ANN, rename("cn=w,ou=a,dc=m", "cn=x"), "0"),
    (CID, rename(X, "cn=w", C), "32"),
    (CID, rename(X, "cn=w"), "0"),
]


@test
def a_move_is_refused_by_the_first_row_of_its_table():
    return [steps(SITE, REFUSED, "moves", ANN)]


@test
def an_entry_that_may_leave_and_come_stands_below_its_new_superior():
    return [steps(SITE, [(who, request, "0")], entry, ANN, with_before(without(SITE, old), behind, entry))
            for who, request, old, entry, behind in DONE]


@test
def where_an_entry_stands_decides_what_may_be_done_with_it():
    left = with_before(without(SITE, X), Z, "dn: cn=w,ou=a,dc=m\nobjectClass: device\ncn: w\n")
    return [steps(SITE, PLACES, "moves one after the other", ANN, left)]
