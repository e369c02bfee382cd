#!/usr/bin/env bash
# Asks a server over harbour.ldif as nobody and as some of its people, and shows who sees and may change what.
# It starts the server at a port of its own, changes its tree in memory alone, and ends it. It needs OpenLDAP's clients.
set -u
here=$(cd "$(dirname "${BASH_SOURCE[0]}")" && pwd)
server=${1:-$here/../aclserver}
port=${2:-3899}
url=ldap://127.0.0.1:$port
suffix=o=Brackwater

if ! command -v ldapsearch >/dev/null; then
    echo "skipped: ldapsearch is not installed" >&2
    exit 0
fi

piet=(-D "uid=piet,ou=people,$suffix" -w ebb)
kofi=(-D "uid=kofi,ou=people,$suffix" -w neap-tide)
runa=(-D "uid=runa,ou=people,$suffix" -w slack-water)
ines=(-D "uid=ines,ou=people,$suffix" -w spring-tide)

say() { printf '\n# %s\n' "$1"; }
find_() { ldapsearch -x -LLL -o ldif-wrap=no -H "$url" "$@"; }

log=$(mktemp)
"$server" serve "$here/harbour.ldif" "127.0.0.1:$port" >"$log" &
pid=$!
trap 'kill "$pid" 2>/dev/null; rm -f "$log"' EXIT
until [ -s "$log" ]; do
    kill -0 "$pid" 2>/dev/null || exit 1
    sleep 0.2
done

say "anyone may look Amal up: her name and telephone number"
find_ -b "ou=people,$suffix" '(sn=Said)' cn telephoneNumber mobile

say "anyone sees one project, and Piet two"
find_ -b "ou=projects,$suffix" '(description=*)' description
find_ "${piet[@]}" -b "ou=projects,$suffix" '(objectClass=organizationalUnit)' description

say "a stranger reads no serial number, and Runa does"
find_ -b "ou=devices,$suffix" '(cn=gauge 1)' serialNumber
find_ "${runa[@]}" -b "ou=devices,$suffix" '(cn=gauge 1)' serialNumber

gauge="dn: cn=gauge 3,ou=devices,$suffix
objectClass: device
serialNumber: TM-20420"

say "a stranger puts no gauge in, Runa does, and she takes it out again"
ldapadd -x -H "$url" <<<"$gauge" 2>&1
ldapadd -x -H "$url" "${runa[@]}" <<<"$gauge" 2>&1
find_ "${runa[@]}" -b "ou=devices,$suffix" '(serialNumber=TM-2042*)' serialNumber
ldapdelete -x -H "$url" "${runa[@]}" "cn=gauge 3,ou=devices,$suffix"

say "Ines closes the project of the lights while the server runs, and opens it again"
ldapadd -x -H "$url" "${ines[@]}" 2>&1 <<RULE
dn: cn=closed lights,$suffix
objectClass: subentry
objectClass: accessControlSubentry
subtreeSpecification: { base "ou=lights,ou=projects" }
prescriptiveACI: { identificationTag "closed", precedence 50,
  authenticationLevel none, itemOrUserFirst userFirst: {
  userClasses { allUsers }, userPermissions { {
  protectedItems { entry },
  grantsAndDenials { denyBrowse, denyReturnDN, denyDiscloseOnError } } } } }
RULE
find_ -b "ou=lights,ou=projects,$suffix" description 2>&1
ldapdelete -x -H "$url" "${ines[@]}" "cn=closed lights,$suffix"
find_ -b "ou=lights,ou=projects,$suffix" description

number="changetype: modify
replace: telephoneNumber
telephoneNumber: +47 70 55 01 99"

say "Piet gives himself another number, and Amal none"
ldapmodify -x -H "$url" "${piet[@]}" <<<"dn: uid=piet,ou=people,$suffix
$number" 2>&1
ldapmodify -x -H "$url" "${piet[@]}" <<<"dn: uid=amal,ou=people,$suffix
$number" 2>&1
find_ -b "ou=people,$suffix" '(|(sn=Hoekstra)(sn=Said))' telephoneNumber

say "he may have three numbers, and not four"
for last in 98 97 96; do
    ldapmodify -x -H "$url" "${piet[@]}" 2>&1 <<NUMBER
dn: uid=piet,ou=people,$suffix
changetype: modify
add: telephoneNumber
telephoneNumber: +47 70 55 01 $last
NUMBER
done

say "the help desk gives Piet a new password, without reading the old one"
ldapmodify -x -H "$url" "${kofi[@]}" 2>&1 <<PASSWORD
dn: uid=piet,ou=people,$suffix
changetype: modify
replace: userPassword
userPassword: flood
PASSWORD
find_ "${piet[@]}" -b "ou=heron,ou=projects,$suffix" -s base description 2>&1
find_ -D "uid=piet,ou=people,$suffix" -w flood -b "ou=heron,ou=projects,$suffix" -s base description

say "Ines gives a gauge another name"
ldapmodrdn -x -H "$url" -r "${ines[@]}" "cn=gauge 2,ou=devices,$suffix" "cn=gauge north"
find_ "${ines[@]}" -b "ou=devices,$suffix" '(cn=gauge*)' cn

say "Ines moves a light to the project of the lights, and Runa moves none"
ldapmodrdn -x -H "$url" "${runa[@]}" -s "ou=lights,ou=projects,$suffix" "cn=light 7,ou=devices,$suffix" "cn=light 7" 2>&1
ldapmodrdn -x -H "$url" "${ines[@]}" -s "ou=lights,ou=projects,$suffix" "cn=light 7,ou=devices,$suffix" "cn=light 7"
find_ "${ines[@]}" -b "$suffix" '(cn=light 7)' cn
