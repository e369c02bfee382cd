"""A point at which everyone may do everything, records below it as a data file is written, and elements (X.690 8.1)."""

import base64

# The point, and the subentry that grants everything to everyone.
POINT = """\
version: 1

dn: dc=example
objectClass: domain
dc: example
administrativeRole: autonomousArea

dn: cn=0,dc=example
objectClass: subentry
objectClass: accessControlSubentry
cn: 0
subtreeSpecification: { }
prescriptiveACI: """ + (
    '{ identificationTag "all", precedence 0, authenticationLevel none, itemOrUserFirst userFirst: { userClasses { '
    "allUsers }, userPermissions { { protectedItems { entry, attributeType { administrativeRole, accessControlScheme, "
    "entryACI, subentryACI }, allAttributeValues { administrativeRole, accessControlScheme, entryACI, subentryACI }, "
    "allUserAttributeTypesAndValues }, grantsAndDenials { grantAdd, grantDiscloseOnError, grantRead, grantRemove, "
    "grantBrowse, grantExport, grantImport, grantModify, grantRename, grantReturnDN, grantCompare, grantFilterMatch } } } } "
    "}\n"
)


def opened(*records):
    """A data file of the point and of records below it; it is the file that is put of it, where they are as they are put."""
    return POINT + "".join("\n" + record for record in records)


def line(kind, value):
    """A line of a record with the octets of a value in base64, a byte 80 or higher as a surrogate (RFC 2849)."""
    return f"{kind}:: {base64.b64encode(octets(value)).decode()}\n"


def put(kind, value):
    """The line of a value as the program puts it: a SAFE-STRING that does not end in a space, or base64."""
    is_safe = value.isascii() and not set(value) & set("\0\n\r") and value[:1] not in (" ", ":", "<") and value[-1:] != " "
    return f"{kind}: {value}\n" if is_safe else line(kind, value)


def octets(text):
    """The octets of a text, whose surrogates stand for bytes that are not in UTF-8."""
    return text.encode("utf-8", "surrogateescape")


def element(tag, *contents):
    """An element in hexadecimal, with the shortest length."""
    content = "".join(contents)
    size = len(content) // 2
    length = f"{size:x}"
    length = "0" * (len(length) % 2) + length
    return tag + (f"{size:02x}" if size < 128 else f"{128 + len(length) // 2:02x}{length}") + content


def text(tag, value):
    """An element of the octets of a text."""
    return element(tag, octets(value).hex())


def told(name, is_found):
    """What a search of one entry without attributes puts, where it is found and where it isn't."""
    return f"\ndn: {name}\n" if is_found else ""


def sent(octets):
    """The script of a connection that sends these octets, in hexadecimal."""
    return f"open 1\nsend 1 {octets}\n"
