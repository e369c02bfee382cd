#!/usr/bin/env python3
"""Makes a data file for this server of what another directory server exports.

usage: examples/from_export.py [--first-rule] EXPORT >DATA

EXPORT is LDIF (RFC 2849) as `slapcat` and other servers' exports print it. Types and classes that this server's table
does not have are left out, and so is what the classes that are left do not allow; an entry of which no structural class
is left is left out with all below it. Each is counted by its name on standard error, and so are the passwords that no
bind will accept. With `--first-rule` the first entry becomes an administrative point, and a subentry below it lets
everyone find and read all but the passwords; without it the tree answers nobody. `aclserver check` then says whether the
file is accepted.
"""

import base64
import collections
import pathlib
import re
import sys

TABLES = pathlib.Path(__file__).resolve().parent.parent / "crates/schema_tables/src"

# What is left out, and how it is told: of each kind its names are counted.
LEFT_OUT = {
    "type": "types that are not in the table",
    "class": "classes that are not in the table",
    "forbidden": "types that no class left in the entry allows",
    "entry": "entries without a structural class of the table, by their classes",
    "below": "entries below one that was left out",
    "option": "types with an option",
    "reference": "values that stand in another file",
    "scheme": "passwords that no bind will accept, by their scheme",
}

FIRST_RULE = """\
dn: cn=first rule,{suffix}
objectClass: subentry
objectClass: accessControlSubentry
cn: first rule
subtreeSpecification: {{ }}
prescriptiveACI: {{ identificationTag "first rule", precedence 10,
  authenticationLevel none, itemOrUserFirst userFirst: {{
  userClasses {{ allUsers }}, userPermissions {{ {{
  protectedItems {{ entry, allUserAttributeTypesAndValues }},
  grantsAndDenials {{ grantBrowse, grantReturnDN, grantRead, grantCompare,
  grantFilterMatch, grantDiscloseOnError }} }} }} }} }}
prescriptiveACI: {{ identificationTag "passwords", precedence 255,
  authenticationLevel none, itemOrUserFirst itemFirst: {{
  protectedItems {{ attributeType {{ userPassword }},
  allAttributeValues {{ userPassword }} }},
  itemPermissions {{ {{ userClasses {{ allUsers }},
  grantsAndDenials {{ denyRead, denyCompare, denyFilterMatch }} }} }} }} }}
"""


class Schema:
    """The server's table: types and classes by name and by object identifier."""

    def __init__(self):
        rows = re.findall(r'attribute!\("([\w-]+)", "([\d.]+)"', (TABLES / "attributes.rt").read_text())
        self.types = {word.lower(): name for name, oid in rows for word in (name, oid)}
        constants = {re.sub(r"[^a-z]", "", name.lower()): name for name, _oid in rows}
        self.classes, self.kinds, self.above, self.allows = {}, {}, {}, {}
        row = r'class!\("(\w+)", "([\d.]+)", (\w+),\s*(?:None|Some\(ClassId::(\w+)\)),\s*\[([\w, \n]*)\],\s*\[([\w, \n]*)\]'
        for name, oid, kind, above, musts, mays in re.findall(row, (TABLES / "classes.rt").read_text()):
            self.classes.update({name.lower(): name, oid: name})
            self.kinds[name] = kind
            self.above[name] = above.lower().replace("_", "")
            named = re.findall(r"\w+", musts + " " + mays)
            self.allows[name] = {constants[word.lower().replace("_", "")] for word in named}

    def allowed(self, classes):
        """The types that these classes and those above them name."""
        found, due = set(), list(classes)
        while due:
            name = due.pop()
            found |= self.allows[name]
            above = self.classes.get(self.above[name])
            due += [above] if above else []
        return found


def records(text):
    """The records of LDIF, each a list of lines as they are, a folded one joined."""
    found, lines = [], []
    for line in text.splitlines() + [b""]:
        if line.startswith(b" ") and lines:
            lines[-1] += line[1:]
        elif line:
            lines.append(line)
        else:
            lines = [line for line in lines if not line.startswith(b"#") and not re.match(rb"version:", line, re.I)]
            found += [lines] if lines else []
            lines = []
    return found


def value_of(rest):
    """The octets of a value, behind its type and colon."""
    return base64.b64decode(rest[1:].strip()) if rest.startswith(b":") else rest.lstrip(b" ")


def key_of(name):
    """A name's RDNs, to find superiors by: case and spaces around separators don't count."""
    return tuple(re.sub(rb"\s*=\s*", b"=", part.strip().lower()) for part in re.split(rb"(?<!\\),", name))


class Export:
    """What becomes of an export: the lines to be put, and what was left out of it."""

    def __init__(self, schema):
        self.schema, self.left, self.gone = schema, collections.defaultdict(collections.Counter), set()

    def kept(self, lines):
        """The lines of a record that are put, without its name; None where the entry is left out."""
        schema, classes, unknown, values = self.schema, [], [], []
        for line in lines[1:]:
            word, _colon, rest = line.partition(b":")
            kind = schema.types.get(word.decode("ascii", "replace").lower())
            if kind is None:
                self.left["option" if b";" in word else "type"][word.decode("ascii", "replace")] += 1
            elif rest.startswith(b"<"):
                self.left["reference"][kind] += 1
            elif kind == "objectClass":
                word = value_of(rest).decode("ascii", "replace")
                name = schema.classes.get(word.lower())
                (classes if name else unknown).append(name or word)
            else:
                values.append((kind, rest))
        self.left["class"].update(unknown)
        if "Structural" not in [schema.kinds[name] for name in classes]:
            self.left["entry"][" and ".join(classes + unknown)] += 1
            return None
        allowed, put = schema.allowed(classes), [b"objectClass: " + name.encode() for name in classes]
        for kind, rest in values:
            if kind not in allowed:
                self.left["forbidden"][kind] += 1
                continue
            scheme = re.match(rb"\{[^}]*\}?", value_of(rest)) if kind == "userPassword" else None
            if scheme and scheme[0] != b"{SHA256}":
                self.left["scheme"][scheme[0].decode("ascii", "replace")] += 1
            put.append(kind.encode() + b":" + rest)
        return put

    def lines(self, found, first_rule):
        """The lines of the data file, superiors before those below them."""
        named = [(value_of(lines[0].partition(b":")[2]), lines) for lines in found]
        for at, (name, lines) in enumerate(sorted(named, key=lambda row: len(key_of(row[0])))):
            key = key_of(name)
            if key[1:] in self.gone:
                self.left["below"][name.partition(b",")[2].decode("utf-8", "replace")] += 1
            put = None if key[1:] in self.gone else self.kept(lines)
            if put is None:
                self.gone.add(key)
                continue
            yield from (b"", lines[0], *put)
            if first_rule and at == 0:
                yield b"administrativeRole: accessControlSpecificArea"
                yield b""
                yield from FIRST_RULE.format(suffix=name.decode()).encode().splitlines()

    def tell(self):
        """Tells on standard error what was left out."""
        for kind, words in LEFT_OUT.items():
            counted = {name: count for name, count in self.left[kind].items() if count}
            if counted:
                print(f"{words}: " + ", ".join(f"{name} {count}" for name, count in sorted(counted.items())), file=sys.stderr)


def main(words):
    first_rule, words = "--first-rule" in words, [word for word in words if word != "--first-rule"]
    if len(words) != 1:
        print(__doc__.split("\n\n")[1], file=sys.stderr)
        return 2
    found = [lines for lines in records(pathlib.Path(words[0]).read_bytes()) if lines[0].lower().startswith(b"dn:")]
    export = Export(Schema())
    for line in (b"version: 1", *export.lines(found, first_rule)):
        sys.stdout.buffer.write(line + b"\n")
    export.tell()
    return 0


if __name__ == "__main__":
    sys.exit(main(sys.argv[1:]))
