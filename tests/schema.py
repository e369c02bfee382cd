"""The schema (RFC 4519, RFC 4524, RFC 2798, RFC 3672): each attribute type and each class, by name and by identifier."""

from opened import opened, told
from program import Run, Status, test

# An access control item that grants nothing, with a tag.
ITEM = (
    '{{ identificationTag "{}", precedence 0, authenticationLevel none, itemOrUserFirst userFirst: {{ userClasses {{ }}, '
    "userPermissions {{ }} }} }}"
)

# What an entry of a class is, but for its name and its line `cn`: its classes and what these require.
DEVICE = "objectClass: device\n"
PERSON = "objectClass: inetOrgPerson\nsn: z\n"
OTHERS = {
    "group": "objectClass: groupOfNames\nmember: cn=z\n",
    "unique": "objectClass: groupOfUniqueNames\nuniqueMember: cn=z\n",
    "role": "objectClass: organizationalRole\n",
    "subentry": "objectClass: subentry\nobjectClass: accessControlSubentry\n",
    "aci": "objectClass: subentry\nobjectClass: accessControlSubentry\nsubtreeSpecification: { }\n",
    "domain": DEVICE + "objectClass: dcObject\n",
    "country": "objectClass: country\n",
}

# Each attribute type: its name, its object identifier, its marks (n may name, s single-valued, o operational), classes that
# allow it, two values of it that differ, and octets that are none, where some are.
ATTRIBUTES = [
    ("objectClass", "2.5.4.0", "", "uid: z\n", "device", "uidObject", "!"),
    ("cn", "2.5.4.3", "n", DEVICE, "a", "b", ""),
    ("sn", "2.5.4.4", "n", "objectClass: person\n", "a", "b", ""),
    ("serialNumber", "2.5.4.5", "n", DEVICE, "a", "b", ""),
    ("c", "2.5.4.6", "ns", "country", "DE", "NO", "D1"),
    ("l", "2.5.4.7", "n", DEVICE, "a", "b", ""),
    ("st", "2.5.4.8", "n", PERSON, "a", "b", ""),
    ("street", "2.5.4.9", "n", PERSON, "a", "b", ""),
    ("o", "2.5.4.10", "n", PERSON, "a", "b", ""),
    ("ou", "2.5.4.11", "n", PERSON, "a", "b", ""),
    ("title", "2.5.4.12", "n", PERSON, "a", "b", ""),
    ("description", "2.5.4.13", "n", PERSON, "a", "b", ""),
    ("postalCode", "2.5.4.17", "n", PERSON, "a", "b", ""),
    ("telephoneNumber", "2.5.4.20", "", PERSON, "1", "2", "1\t"),
    ("member", "2.5.4.31", "", "group", "cn=a", "cn=b", "a"),
    ("owner", "2.5.4.32", "", DEVICE, "cn=a", "cn=b", "a"),
    ("roleOccupant", "2.5.4.33", "", "role", "cn=a", "cn=b", "a"),
    ("seeAlso", "2.5.4.34", "", DEVICE, "cn=a", "cn=b", "a"),
    ("userPassword", "2.5.4.35", "", PERSON, "a", "A", None),
    ("givenName", "2.5.4.42", "n", PERSON, "a", "b", ""),
    ("initials", "2.5.4.43", "n", PERSON, "a", "b", ""),
    ("uniqueMember", "2.5.4.50", "", "unique", "cn=a", "cn=b", "a"),
    ("uid", "0.9.2342.19200300.100.1.1", "n", PERSON, "a", "b", ""),
    ("mail", "0.9.2342.19200300.100.1.3", "n", PERSON, "a", "b", "\u00e9"),
    ("manager", "0.9.2342.19200300.100.1.10", "", PERSON, "cn=a", "cn=b", "a"),
    ("dc", "0.9.2342.19200300.100.1.25", "ns", "domain", "a", "b", "\u00e9"),
    ("mobile", "0.9.2342.19200300.100.1.41", "", PERSON, "1", "2", "1\t"),
    ("employeeNumber", "2.16.840.1.113730.3.1.3", "ns", PERSON, "a", "b", ""),
    ("displayName", "2.16.840.1.113730.3.1.241", "ns", PERSON, "a", "b", ""),
    ("administrativeRole", "2.5.18.5", "o", DEVICE, "2.5.23.3", "1.2.3", "!"),
    ("subtreeSpecification", "2.5.18.6", "so", "subentry", "{ }", "{ minimum 1 }", None),
    ("accessControlScheme", "2.5.24.1", "so", DEVICE, "2.5.28.1", "2.5.28.2", "!"),
    ("prescriptiveACI", "2.5.24.4", "o", "aci", ITEM.format("a"), ITEM.format("b"), None),
    ("entryACI", "2.5.24.5", "o", DEVICE, ITEM.format("a"), ITEM.format("b"), None),
    ("subentryACI", "2.5.24.6", "o", DEVICE, ITEM.format("a"), ITEM.format("b"), None),
]

# Each class: its name, its object identifier, its kind (a abstract, s structural, x auxiliary), the class above it, what its
# own row requires, and what that allows besides.
CLASSES = [
    ("top", "2.5.6.0", "a", None, "objectClass", ""),
    ("country", "2.5.6.2", "s", "top", "c", "description"),
    ("locality", "2.5.6.3", "s", "top", "", "street seeAlso st l description"),
    ("organization", "2.5.6.4", "s", "top", "o", "userPassword seeAlso telephoneNumber street postalCode st l description"),
    ("organizationalUnit", "2.5.6.5", "s", "top", "ou", "userPassword seeAlso telephoneNumber street postalCode st l description"),
    ("person", "2.5.6.6", "s", "top", "sn cn", "userPassword telephoneNumber seeAlso description"),
    ("organizationalPerson", "2.5.6.7", "s", "person", "", "title street postalCode ou st l"),
    ("organizationalRole", "2.5.6.8", "s", "top", "cn", "telephoneNumber seeAlso roleOccupant street postalCode ou st l description"),
    ("groupOfNames", "2.5.6.9", "s", "top", "member cn", "seeAlso owner ou o description"),
    ("device", "2.5.6.14", "s", "top", "cn", "serialNumber seeAlso owner ou o l description"),
    ("groupOfUniqueNames", "2.5.6.17", "s", "top", "uniqueMember cn", "seeAlso owner ou o description"),
    (
        "domain",
        "0.9.2342.19200300.100.4.13",
        "s",
        "top",
        "dc",
        "userPassword seeAlso telephoneNumber street postalCode st l description o",
    ),
    ("account", "0.9.2342.19200300.100.4.5", "s", "top", "uid", "description seeAlso l o ou"),
    (
        "inetOrgPerson",
        "2.16.840.1.113730.3.2.2",
        "s",
        "organizationalPerson",
        "",
        "displayName employeeNumber givenName initials mail manager mobile o uid",
    ),
    ("dcObject", "1.3.6.1.4.1.1466.344", "x", "top", "dc", ""),
    ("uidObject", "1.3.6.1.1.3.1", "x", "top", "uid", ""),
    ("simpleSecurityObject", "0.9.2342.19200300.100.4.19", "x", "top", "userPassword", ""),
    ("subentry", "2.5.17.0", "s", "top", "cn subtreeSpecification", ""),
    ("accessControlSubentry", "2.5.17.1", "x", "top", "", "prescriptiveACI"),
]

# The types that may stand in every entry; those of points in each that is no subentry.
ANYWHERE = ["objectClass", "administrativeRole", "accessControlScheme", "entryACI", "subentryACI"]

# A text, and the dotted form that it stands for, or None.
DOTTED = [
    ("CN", "2.5.4.3"),
    ("entryaci", "2.5.24.5"),
    ("ORGANIZATIONALunit", "2.5.6.5"),
    ("top", "2.5.6.0"),
    ("autonomousAREA", "2.5.23.1"),
    ("accessControlSpecificArea", "2.5.23.2"),
    ("ACCESSCONTROLINNERAREA", "2.5.23.3"),
    ("0.0", "0.0"),
    ("1", None),
    ("1.02", None),
    ("1..2", None),
    (".1", None),
    ("1.2.", None),
    ("nothing", None),
]

# Names of no attribute type, as lines, and the cause.
NO_ATTRIBUTES = [
    ("cn ", "syntax"),
    ("2.5.4.03", "syntax"),
    ("commonName", "type"),
    ("2.5.4", "type"),
    ("person", "type"),
    ("2.5.6.6", "type"),
    ("autonomousArea", "type"),
]

# Texts of no class, the line of the record that is refused, and the cause.
NO_CLASSES = [
    ("people", 1, "value"),
    ("2.5.6", 0, "rule 65"),
    ("cn", 0, "rule 65"),
    ("2.5.4.3", 0, "rule 65"),
    ("autonomousArea", 0, "rule 65"),
]


def odd(name):
    """The name with letters in either case by turns."""
    return "".join(letter.lower() if place % 2 else letter.upper() for place, letter in enumerate(name))


def grouped(record):
    """The lines of a record in the order in which they are put: those of a type together, where the first stands."""
    lines = record.splitlines(keepends=True)
    kinds = [line.partition(":")[0] for line in lines]
    return "".join(sorted(lines, key=lambda line: kinds.index(line.partition(":")[0])))


def rdn_of(classes):
    """The RDN of a record of the classes, or of another entry: a country has no common name."""
    return "description" if classes == "country" else "cn"


def record(classes, *lines):
    """The record, with lines at its end."""
    return f"dn: {rdn_of(classes)}=z,dc=example\n" + OTHERS.get(classes, classes) + f"{rdn_of(classes)}: z\n" + "".join(lines)


def refused(what, data, line, cause):
    """The check of a data file that is refused at this line of its last record, from 0, for the cause."""
    number = data[: data.rindex("\n\n")].count("\n") + 3 + line
    return Run("check d", f"bad data line {number}: {cause}\n", what, Status.BAD_DATA, data)


VALUES = {name: value for name, _oid, _marks, _classes, value, _other, _none in ATTRIBUTES}
NAMING = [name for name, _oid, marks, _classes, _value, _other, _none in ATTRIBUTES if "n" in marks]
ROWS = {name: (kind, above, required.split(), allowed.split()) for name, _oid, kind, above, required, allowed in CLASSES}


def classes_of(name):
    """The class and those above it."""
    above = ROWS[name][1]
    return [name, *classes_of(above)] if above else [name]


def required_by(name):
    """What a class and those above it require, objectClass aside."""
    return [kind for one in classes_of(name) for kind in ROWS[one][2] if kind != "objectClass"]


def allowed_by(name):
    """What a class and those above it allow besides."""
    return [kind for one in classes_of(name) for kind in ROWS[one][3]]


def entry(classes, kinds, rdn):
    """A record of classes with a value of each type, named by one of them."""
    lines = [f"objectClass: {name}\n" for name in classes] + [f"{kind}: {VALUES[kind]}\n" for kind in kinds]
    return f"dn: {rdn}={VALUES[rdn]},dc=example\n" + "".join(lines)


def naming(kinds):
    """The first of the types that may name, and cn where none may."""
    return next((kind for kind in kinds if kind in NAMING), "cn")


@test
def each_attribute_type_is_found_by_name_and_by_identifier():
    runs = []
    for name, oid, marks, classes, value, other, _none in ATTRIBUTES:
        if "s" in marks:
            both = record(classes, f"{odd(name)}: {value}\n", f"{oid}: {other}\n")
            runs.append(refused(name, opened(both), 0, "rule 19"))
            put = opened(record(classes, f"{name}: {value}\n"))
            files = [opened(record(classes, f"{text}: {value}\n")) for text in (odd(name), oid)]
            runs += [Run("dump d", put, name, data=data) for data in files]
        else:
            given = opened(record(classes, f"{odd(name)}: {value}\n", f"{oid}: {other}\n"))
            put = opened(grouped(record(classes, f"{name}: {value}\n", f"{name}: {other}\n")))
            runs.append(Run("dump d", put, name, data=given))
    return runs


@test
def a_type_names_where_its_row_says():
    runs = []
    for name, _oid, marks, classes, value, _other, _none in ATTRIBUTES:
        rdn = "x" if "{" in value else value
        data = opened(record(classes, f"{name}: {value}\n").replace(f"dn: {rdn_of(classes)}=z", f"dn: {odd(name)}={rdn}"))
        runs.append(Run("check d", "ok 3 1\n", name, data=data) if "n" in marks else refused(name, data, 0, "name"))
    return runs


@test
def operational_types_are_told_where_they_are_asked_for():
    runs = []
    for name, _oid, marks, classes, value, _other, _none in ATTRIBUTES:
        if name != "objectClass" and "objectClass: subentry" not in OTHERS.get(classes, ""):
            own = f"{name}: {value}\n"
            whole = grouped(record(classes, own))
            dn = f"dn: {rdn_of(classes)}=z,dc=example\n"
            asks = "\n".join(f"{dn}do: search\nselect: {chosen}\n" for chosen in ("*", "+"))
            user, operational = (record(classes), own) if "o" in marks else (whole, "")
            put = f"\n{user}# 1 0\n\n{dn}{operational}# 2 0\n"
            runs.append(Run("ask d s", put, name, data=opened(record(classes, own)), script=asks))
    return runs


@test
def each_type_has_values_of_its_syntax_alone():
    rows = [(name, classes, none) for name, _oid, _marks, classes, _value, _other, none in ATTRIBUTES if none is not None]
    return [
        refused(name, opened(record(classes, f"{name}: {none}\n")), record(classes).count("\n"), "value")
        for name, classes, none in rows
    ]


@test
def what_no_row_has_is_no_type_and_no_class():
    types = [refused(name, opened(record(DEVICE, f"{name}: a\n")), 3, cause) for name, cause in NO_ATTRIBUTES]
    classes = [refused(name, opened(record(f"objectClass: {name}\n")), line, cause) for name, line, cause in NO_CLASSES]
    return types + classes


@test
def each_class_is_found_by_name_and_by_identifier():
    return [
        refused(name, opened(f"dn: cn=z,dc=example\nobjectClass: {odd(name)}\nobjectClass: {oid}\n"), 2, "twice")
        for name, oid, _kind, _above, _required, _allowed in CLASSES
    ]


@test
def an_entry_is_of_one_structural_class_at_least():
    runs = []
    for name, (kind, _above, _required, _allowed) in ROWS.items():
        data = opened(entry([name], required_by(name), naming([*required_by(name), *allowed_by(name)])))
        counted = Run("check d", "ok 3 2\n" if name == "accessControlSubentry" else "ok 3 1\n", name, data=data)
        runs.append(counted if kind == "s" else refused(name, data, 0, "rule 65"))
    return runs


@test
def an_entry_is_of_its_class_and_of_those_above_it():
    runs = []
    for name, (kind, _above, _required, _allowed) in ROWS.items():
        if kind == "s" and name != "subentry":
            rdn = naming([*required_by(name), *allowed_by(name)])
            dn = f"{rdn}={VALUES[rdn]},dc=example"
            asks = "\n".join(f"dn: {dn}\ndo: search\nfilter: (objectClass={other})\nselect: 1.1\n" for other in ROWS)
            found = [told(dn, other in classes_of(name)) for other in ROWS]
            put = "".join(f"{entry_of}# {number} 0\n" for number, entry_of in enumerate(found, 1))
            runs.append(Run("ask d s", put, name, data=opened(entry([name], required_by(name), rdn)), script=asks))
    return runs


@test
def a_class_requires_what_its_row_says():
    runs = []
    for name, (kind, _above, required, _allowed) in ROWS.items():
        classes = [name] if kind == "s" else ["inetOrgPerson", name]
        kinds = [one for of in classes for one in required_by(of)]
        for absent in required if kind != "a" else []:
            rest = [one for one in kinds if one != absent]
            others = [one for of in classes for one in [*required_by(of), *allowed_by(of)] if one in NAMING and one != absent]
            if others:
                runs.append(refused(f"{name} without {absent}", opened(entry(classes, rest, others[0])), 0, "rule 65"))
    return runs


@test
def a_class_allows_what_its_row_says():
    runs = []
    for name, (kind, _above, _required, _allowed) in ROWS.items():
        if kind == "s":
            known = [*required_by(name), *allowed_by(name)]
            rdn = naming(known)
            runs.append(Run("check d", "ok 3 1\n", name, data=opened(entry([name], known, rdn))))
            for one in (one for one in VALUES if one not in known and one not in ANYWHERE):
                data = opened(entry([name], [*required_by(name), one], rdn))
                runs.append(refused(f"{name} with {one}", data, 0, "rule 65"))
    return runs


@test
def a_text_has_the_dotted_form_of_its_name_or_its_own():
    runs = []
    for text, dotted in DOTTED:
        once = record(DEVICE, f"administrativeRole: {text}\n")
        if dotted is None:
            runs.append(refused(text, opened(once), 3, "value"))
        elif dotted == text:
            runs.append(Run("check d", "ok 3 1\n", text, data=opened(once)))
        else:
            runs.append(refused(text, opened(once + f"administrativeRole: {dotted}\n"), 4, "twice"))
    return runs
