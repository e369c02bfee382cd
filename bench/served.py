"""A server of the program over a tree of many people under access control, and messages to it."""

import contextlib
import os
import pathlib
import socket
import subprocess
import tempfile

TICKS = os.sysconf("SC_CLK_TCK")
SUFFIX = "o=bench"
ADMIN = "uid=keeper,ou=people," + SUFFIX
# A person with the password `keys`, whom nothing but the rules for everybody and for one's own entry speaks of.
OWN = "uid=own,ou=people," + SUFFIX
GROUP = "cn=keepers,ou=people," + SUFFIX

HEAD = """dn: o=bench
objectClass: organization
o: bench
administrativeRole: accessControlSpecificArea

dn: cn=open,o=bench
objectClass: subentry
objectClass: accessControlSubentry
cn: open
subtreeSpecification: { specificExclusions { chopBefore:"ou=closed" } }
prescriptiveACI: { identificationTag "open", precedence 10, authenticationLevel none, itemOrUserFirst userFirst: { userClasses { allUsers }, userPermissions { { protectedItems { entry, allUserAttributeTypesAndValues }, grantsAndDenials { grantBrowse, grantReturnDN, grantRead, grantCompare, grantFilterMatch, grantDiscloseOnError } } } } }

dn: cn=passwords,o=bench
objectClass: subentry
objectClass: accessControlSubentry
cn: passwords
subtreeSpecification: { }
prescriptiveACI: { identificationTag "passwords", precedence 255, authenticationLevel none, itemOrUserFirst itemFirst: { protectedItems { attributeType { userPassword }, allAttributeValues { userPassword } }, itemPermissions { { userClasses { allUsers }, grantsAndDenials { denyRead, denyCompare, denyFilterMatch } } } } }

dn: cn=own,o=bench
objectClass: subentry
objectClass: accessControlSubentry
cn: own
subtreeSpecification: { base "ou=people" }
prescriptiveACI: { identificationTag "own", precedence 20, authenticationLevel simple, itemOrUserFirst userFirst: { userClasses { thisEntry }, userPermissions { { protectedItems { entry }, grantsAndDenials { grantModify } }, { protectedItems { attributeType { telephoneNumber }, allAttributeValues { telephoneNumber } }, grantsAndDenials { grantAdd, grantRemove } } } } }

dn: cn=keepers,o=bench
objectClass: subentry
objectClass: accessControlSubentry
cn: keepers
subtreeSpecification: { }
prescriptiveACI: { identificationTag "keepers", precedence 100, authenticationLevel simple, itemOrUserFirst userFirst: { userClasses { name { "uid=keeper,ou=people,o=bench" } }, userPermissions { { protectedItems { entry, allUserAttributeTypesAndValues }, grantsAndDenials { grantAdd, grantRemove, grantBrowse, grantRead, grantModify, grantRename } } } } }

dn: ou=people,o=bench
objectClass: organizationalUnit

dn: uid=keeper,ou=people,o=bench
objectClass: inetOrgPerson
cn: Keeper
sn: Keeper
userPassword: keys

dn: ou=closed,o=bench
objectClass: organizationalUnit

dn: uid=hidden,ou=closed,o=bench
objectClass: inetOrgPerson
cn: Hidden
sn: Hidden

dn: uid=own,ou=people,o=bench
objectClass: inetOrgPerson
cn: Own
sn: Own
userPassword: keys

dn: uid=digest,ou=people,o=bench
objectClass: inetOrgPerson
cn: Digest
sn: Digest
userPassword: {SHA256}SKU/B3TIzv9XSh/csNRw29OCs9snPP9DRLbTnVN5ySM=
"""


FIRST = 1000000


def person(number):
    return [("objectClass", "inetOrgPerson"), ("cn", f"Person {number}"), ("sn", f"Number {number}"),
            ("mail", f"p{number}@bench.example"), ("telephoneNumber", f"+1 555 {number}")]


def people_records(people):
    """The records of so many people."""
    for number in range(FIRST, FIRST + people):
        lines = "".join(f"{kind}: {value}\n" for kind, value in person(number))
        yield f"dn: uid=p{number},ou=people,{SUFFIX}\n{lines}"


def group_record(members):
    """The record of a group of the administrator and of people, so many in all."""
    people = [f"uid=p{number},ou=people,{SUFFIX}" for number in range(FIRST, FIRST + members - 1)]
    lines = "".join(f"member: {name}\n" for name in [ADMIN, *people])
    return f"dn: {GROUP}\nobjectClass: groupOfNames\n{lines}"


def data_file(people, members=0):
    """The data file of so many people; with members the administrators are a group of so many."""
    if not members:
        return "\n".join([HEAD, *people_records(people)])
    head = HEAD.replace(f'userClasses {{ name {{ "{ADMIN}" }} }}', f'userClasses {{ userGroup {{ "{GROUP}" }} }}')
    return "\n".join([head, group_record(members), *people_records(people)])


def element(tag, content):
    size = len(content)
    if size < 128:
        return bytes([tag, size]) + content
    octets = size.to_bytes((size.bit_length() + 7) // 8, "big")
    return bytes([tag, 0x80 | len(octets)]) + octets + content


def message(operation):
    return element(0x30, element(2, bytes([1])) + operation)


def text(words):
    return element(4, words.encode())


def bind(name, password):
    return message(element(0x60, element(2, bytes([3])) + text(name) + element(0x80, password.encode())))


def seconds_of(pid):
    """The processor seconds of a process so far."""
    fields = pathlib.Path(f"/proc/{pid}/stat").read_text().rsplit(")", 1)[1].split()
    return (int(fields[11]) + int(fields[12])) / TICKS


def ask(connection, request, kind):
    connection.sendall(request)
    answer = connection.recv(4096)
    if answer[5] != kind or answer[9] != 0:
        raise SystemExit("not success: " + answer.hex())


def clients_built(folder):
    """Builds clients.c into the folder; gives the path of the program."""
    program = os.path.join(folder, "clients")
    source = pathlib.Path(__file__).resolve().parent / "clients.c"
    subprocess.run(["cc", "-O2", "-o", program, str(source)], check=True)
    return program


def sent(clients, port, load, answer, messages):
    """Sends a bind and then a request, the messages, again and again.

    The load is the connections, the requests outstanding on each, and the requests in all; the answer is the tag of
    its last message and the result code. It gives the answers in a second, and the latency of the middle one, of the
    99th of 100 and of the slowest, in microseconds.
    """
    words = [clients, *(str(number) for number in (port, *load, *answer))]
    ran = subprocess.run(words, input=messages, stdout=subprocess.PIPE, check=True)
    return [int(number) for number in ran.stdout.split()]


def free_port():
    with socket.socket() as found:
        found.bind(("127.0.0.1", 0))
        return found.getsockname()[1]


@contextlib.contextmanager
def served(program, people, members=0):
    """The program as a server over so many people: its process number and its port."""
    port = free_port()
    with tempfile.TemporaryDirectory() as folder:
        data = os.path.join(folder, "people.ldif")
        pathlib.Path(data).write_text(data_file(people, members), encoding="ascii")
        server = subprocess.Popen(program + ["serve", data, f"127.0.0.1:{port}"], stdout=subprocess.PIPE)
        try:
            server.stdout.readline()
            yield server.pid, port
        finally:
            server.kill()
