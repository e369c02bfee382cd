#!/usr/bin/env python3
"""Measures `leak_audit` over a session of 10,000 messages and a tree of 10,000 entries.

Usage: audit_session.py [--program PATH] [--runs N]

Half of the people stand in a unit of which everyone may read all, the other half in one of which only an administrator
may. The administrator, on connection 1, changes an entry of the hidden unit a hundred times among the messages of connection 2,
which searches for the people of the open unit by name. The part must be hushed for connection 2, and nothing differ.
Seconds are those of the clock, the least of the runs.
"""

import argparse
import pathlib
import subprocess
import tempfile
import time

from make_scripts import element, integer

HERE = pathlib.Path(__file__).resolve().parent
PROGRAM = HERE.parent / "crates/leak_audit/out/leak_audit"
ENTRIES, MESSAGES, CHANGES = 10_000, 10_000, 100
HIDDEN = "ou=shut,dc=bench"
ADMIN = "uid=admin,dc=bench"

READS = ("userPermissions { { protectedItems { entry }, grantsAndDenials { grantBrowse, grantReturnDN, grantRead,"
         " grantDiscloseOnError } }, { protectedItems { allUserAttributeTypesAndValues }, grantsAndDenials { grantRead,"
         " grantCompare, grantFilterMatch } } }")
CHANGES_TOO = ("userPermissions { { protectedItems { entry, allUserAttributeTypesAndValues }, grantsAndDenials { grantAdd,"
               " grantRemove, grantModify, grantBrowse, grantRead, grantReturnDN } } }")
HEAD = f"""version: 1

dn: dc=bench
objectClass: domain
dc: bench
administrativeRole: accessControlSpecificArea

dn: cn=acl,dc=bench
objectClass: subentry
objectClass: accessControlSubentry
subtreeSpecification: {{ }}
prescriptiveACI: {{ identificationTag "admin", precedence 9, authenticationLevel simple, itemOrUserFirst userFirst: {{ userClasses {{ name {{ "{ADMIN}" }} }}, {CHANGES_TOO} }} }}

dn: cn=open,dc=bench
objectClass: subentry
objectClass: accessControlSubentry
subtreeSpecification: {{ base "ou=open" }}
prescriptiveACI: {{ identificationTag "open", precedence 5, authenticationLevel none, itemOrUserFirst userFirst: {{ userClasses {{ allUsers }}, {READS} }} }}

dn: {ADMIN}
objectClass: account
objectClass: simpleSecurityObject
uid: admin
userPassword: harbour

dn: ou=open,dc=bench
objectClass: organizationalUnit
ou: open

dn: {HIDDEN}
objectClass: organizationalUnit
ou: shut
"""


def person(number, unit):
    return (f"\ndn: uid=u{number:06d},{unit}\nobjectClass: inetOrgPerson\nuid: u{number:06d}\ncn: Person {number}\nsn: Person\n"
            f"mail: u{number:06d}@bench.example\n")


def write_data(path):
    people = ENTRIES - HEAD.count("dn: ")
    units = ("ou=open,dc=bench", HIDDEN)
    path.write_text(HEAD + "".join(person(number, units[number % 2]) for number in range(people)))
    return people


def text(value, tag=0x04):
    return element(tag, value.encode())


def message(number, request):
    return element(0x30, integer(number) + request)


def bind(number, name, password):
    return message(number, element(0x60, integer(3) + text(name) + text(password, 0x80)))


def modify(number, name, kind, value):
    part = element(0x30, text(kind) + element(0x31, text(value)))
    change = element(0x30, element(0x0A, b"\x02") + part)
    return message(number, element(0x66, text(name) + element(0x30, change)))


def search(number, name):
    asked = (text(name) + element(0x0A, b"\x00") + element(0x0A, b"\x00") + integer(0) + integer(0) + element(0x01, b"\x00")
             + element(0x87, b"objectClass") + element(0x30, b""))
    return message(number, element(0x63, asked))


def write_script(path, people):
    lines = ["open 1", "open 2", "send 1 " + bind(1, ADMIN, "harbour").hex()]
    for number in range(MESSAGES - CHANGES):
        if number % ((MESSAGES - CHANGES) // CHANGES) == 0:
            shut = f"uid=u{2 * number % people | 1:06d},{HIDDEN}"
            lines.append("send 1 " + modify(number + 2, shut, "telephoneNumber", f"+1 555 {number}").hex())
        lines.append("send 2 " + search(number + 1, f"uid=u{2 * number % people & ~1:06d},ou=open,dc=bench").hex())
    path.write_text("\n".join(lines) + "\n")


def main():
    parser = argparse.ArgumentParser(description=__doc__, formatter_class=argparse.RawDescriptionHelpFormatter)
    parser.add_argument("--program", default=PROGRAM)
    parser.add_argument("--runs", type=int, default=10)
    asked = parser.parse_args()
    with tempfile.TemporaryDirectory() as folder:
        data, script = pathlib.Path(folder) / "data.ldif", pathlib.Path(folder) / "session.script"
        write_script(script, write_data(data))
        times = []
        for _ in range(asked.runs):
            begun = time.perf_counter()
            ran = subprocess.run([asked.program, data, script, "2", HIDDEN], capture_output=True, check=False)
            times.append(time.perf_counter() - begun)
            if ran.stdout != b"hush yes\nsame\n":
                raise SystemExit(f"status {ran.returncode}: {ran.stdout[:200]}")
        print(f"{MESSAGES} messages over {ENTRIES} entries, {CHANGES} of them changes: {min(times):.2f} seconds")


if __name__ == "__main__":
    main()
