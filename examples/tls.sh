#!/usr/bin/env bash
# Puts Debian's stunnel4 in front of a server over harbour.ldif, with a certificate that it makes, and asks through it.
# usage: examples/tls.sh [SERVER [PORT [TLS_PORT]]]. It needs stunnel4, openssl and OpenLDAP's clients.
set -u
here=$(cd "$(dirname "${BASH_SOURCE[0]}")" && pwd)
server=${1:-$here/../aclserver}
port=${2:-3898}
tls_port=${3:-6360}
suffix=o=Brackwater

for tool in stunnel4 openssl ldapsearch; do
    if ! command -v "$tool" >/dev/null; then
        echo "skipped: $tool is not installed" >&2
        exit 0
    fi
done

work=$(mktemp -d)
running=()
trap 'kill "${running[@]}" 2>/dev/null; rm -rf "$work"' EXIT

# the key stays in a folder that no other user reads
openssl req -x509 -newkey rsa:2048 -nodes -days 1 -subj /CN=localhost -addext subjectAltName=IP:127.0.0.1,DNS:localhost \
    -keyout "$work/key.pem" -out "$work/certificate.pem" 2>/dev/null || exit 1

cat >"$work/stunnel.conf" <<CONF
foreground = yes
pid =
socket = l:TCP_NODELAY=1
socket = r:TCP_NODELAY=1
[ldaps]
accept = 127.0.0.1:$tls_port
connect = 127.0.0.1:$port
cert = $work/certificate.pem
key = $work/key.pem
sslVersionMin = TLSv1.2
CONF

"$server" serve "$here/harbour.ldif" "127.0.0.1:$port" --idle 600 >"$work/server.log" &
running+=($!)
until [ -s "$work/server.log" ]; do
    kill -0 "${running[0]}" 2>/dev/null || exit 1
    sleep 0.2
done
stunnel4 "$work/stunnel.conf" 2>"$work/stunnel.log" &
running+=($!)
until (exec 3<>"/dev/tcp/127.0.0.1/$tls_port") 2>/dev/null; do
    kill -0 "${running[1]}" 2>/dev/null || { cat "$work/stunnel.log" >&2; exit 1; }
    sleep 0.2
done

export LDAPTLS_CACERT=$work/certificate.pem
find_() { ldapsearch -x -LLL -o ldif-wrap=no -H "ldaps://127.0.0.1:$tls_port" "$@"; }

printf '# over TLS a stranger looks Amal up\n'
find_ -b "ou=people,$suffix" '(sn=Said)' cn telephoneNumber
printf '# and Piet, with his password, sees two projects\n'
find_ -D "uid=piet,ou=people,$suffix" -w ebb -b "ou=projects,$suffix" '(objectClass=organizationalUnit)' description
printf '# a client that does not know the certificate gets nothing\n'
LDAPTLS_CACERT=/dev/null find_ -b "$suffix" '(sn=Said)' cn 2>&1
printf 'status %d\n' $?
