"""Searches for a value: over a tree in which few entries, or many, or hidden ones have it, before and after changes."""

from program import Run, test

RULES = """\
dn: dc=example
objectClass: domain
dc: example
administrativeRole: accessControlSpecificArea

dn: cn=open,dc=example
objectClass: subentry
objectClass: accessControlSubentry
cn: open
subtreeSpecification: { specificExclusions { chopBefore:"ou=hidden" } }
prescriptiveACI: { identificationTag "open", precedence 10, authenticationLevel none, itemOrUserFirst
  userFirst: { userClasses { allUsers }, userPermissions { { protectedItems { entry,
  allUserAttributeTypesAndValues }, grantsAndDenials { grantAdd, grantRemove, grantModify, grantRename, grantBrowse,
  grantReturnDN, grantRead, grantCompare, grantFilterMatch, grantDiscloseOnError } } } } }
"""

# How many people each unit has, and every how many of them live in Oslo.
PEOPLE = {"east": 100, "hidden": 5, "west": 190}
OSLO = 2

# Two mail addresses of one hash, of one person in the east and of one in the west.
COLLIDING = {("east", 10): "coxthjyj@a.org", ("west", 11): "jgrnyioy@a.org"}


def people():
    """The people in the order of their names: of each the name, the mail address and the place."""
    for unit, count in PEOPLE.items():
        for at in range(count):
            place = "Oslo" if at % OSLO == 0 else f"Place {unit} {at}"
            mail = COLLIDING.get((unit, at), f"p{at:03}@{unit}.example")
            yield f"uid=p{at:03},ou={unit},dc=example", mail, place


def data_file():
    """The data file of the people, and of a group of a hundred of them."""
    units = "".join(f"\ndn: ou={unit},dc=example\nobjectClass: organizationalUnit\nou: {unit}\n" for unit in (*PEOPLE, "groups"))
    rows = [f"\ndn: {name}\nobjectClass: inetOrgPerson\nuid: {name[4:8]}\nsn: Person\ncn: Person\nmail: {mail}\nl: {place}\n"
            for name, mail, place in people()]
    members = "".join(f"member: {name}\n" for name, _mail, _place in people() if ",ou=east," in name)
    return RULES + units + "".join(rows) + f"\ndn: cn=easterners,ou=groups,dc=example\nobjectClass: groupOfNames\ncn: easterners\n{members}"


def search(text, base="dc=example", scope="sub", limit=0):
    """A request for the names of the entries that meet a filter."""
    lines = ["dn: " + base, "do: search", "scope: " + scope, *([f"limit: {limit}"] if limit else []), "filter: " + text, "select: 1.1"]
    return "\n".join(lines) + "\n"


def found(names, number=1, code=0):
    """What is printed of a search that finds these entries."""
    return "".join(f"\ndn: {name}\n" for name in names) + f"# {number} {code}\n"


def entries(mails):
    """The names of those who have one of these mail addresses and are not hidden."""
    return [name for name, mail, _place in people() if mail in mails and ",ou=hidden," not in name]


@test
def a_value_is_found_where_few_entries_have_it():
    mail, other = "p007@east.example", "p003@west.example"
    rows = [
        (search(f"(mail={mail})"), entries([mail]), "one holder"),
        (search("(mail=P007@EAST.example)"), entries([mail]), "by the key of the value"),
        (search("(mail=nobody@east.example)"), [], "no holder"),
        *((search(f"(mail={address})"), entries([address]), "another address has its hash") for address in COLLIDING.values()),
        (search("(mail=p001@hidden.example)"), [], "a hidden holder"),
        (search(f"(&(objectClass=person)(|(mail={mail})))"), entries([mail]), "within And, in an Or of one"),
        (search(f"(&(sn=Person)(mail={mail})(mail={other}))"), [], "of two values that no entry has both"),
        (search(f"(!(!(mail={mail})))"), entries([mail]), "denied twice"),
        (search(f"(|(mail={mail})(mail={other}))"), entries([mail, other]), "either of two"),
        (search(f"(&(!(mail={mail}))(mail={other}))"), entries([other]), "beside one that is denied"),
        (search(f"(mail={mail})", "ou=west,dc=example"), [], "below another entry"),
        (search(f"(mail={mail})", scope="one"), [], "two levels below"),
        (search(f"(mail={mail})", "ou=east,dc=example", "one"), entries([mail]), "one level below"),
        (search(f"(mail={mail})", "uid=p007,ou=east,dc=example", "base"), entries([mail]), "of the entry itself"),
        (search(f"(mail={mail})", "ou=east,dc=example", "base"), [], "of the entry above"),
        (search("(ou=east)"), ["ou=east,dc=example"], "the base's own level"),
        (search("(dc=example)"), ["dc=example"], "the suffix"),
    ]
    return [Run("ask d s", found(names), what, data=data_file(), script=script) for script, names, what in rows]


@test
def those_who_have_a_value_come_in_the_order_of_names():
    oslo = [name for name, _mail, place in people() if place == "Oslo" and ",ou=hidden," not in name]
    east = [name for name in oslo if ",ou=east," in name]
    group = ["cn=easterners,ou=groups,dc=example"]
    rows = [
        (search("(l=Oslo)"), oslo, 0, "more than are looked up"),
        (search("(l=Oslo)", limit=3), oslo[:3], 4, "of those a few"),
        (search("(l=Oslo)", "ou=east,dc=example", "one"), east, 0, "below one entry"),
        (search("(l=Oslo)", "ou=east,dc=example", "one", len(east)), east, 0, "no more than the limit"),
        (search("(&(l=Oslo)(uid=p008))"), [name for name in oslo if name.startswith("uid=p008,")], 0, "a value that few have beside it"),
        (search("(uid=p008)", limit=1), ["uid=p008,ou=east,dc=example"], 4, "the first of two"),
        (search("(member=uid=p050,ou=east,dc=example)"), group, 0, "one of many values of a group"),
        (search("(member=uid=p050,ou=west,dc=example)"), [], 0, "none of a group's many values"),
    ]
    return [Run("ask d s", found(names, code=code), what, data=data_file(), script=script) for script, names, code, what in rows]


@test
def a_value_is_found_where_it_is_after_each_change():
    changed = "uid=p007,ou=east,dc=example"
    steps = [
        (f"dn: {changed}\ndo: modify\nreplace: mail\nvalue: new@east.example\n", None),
        (search("(mail=p007@east.example)"), []),
        (search("(mail=new@east.example)"), [changed]),
        (f"dn: {changed}\ndo: rename\nnewrdn: uid=q007\n", None),
        (search("(mail=new@east.example)"), ["uid=q007,ou=east,dc=example"]),
        (search("(uid=q007)"), ["uid=q007,ou=east,dc=example"]),
        ("dn: uid=q007,ou=east,dc=example\ndo: rename\nnewrdn: uid=q007\nnewsuperior: ou=west,dc=example\n", 50),
        (search("(mail=new@east.example)"), ["uid=q007,ou=east,dc=example"]),
        ("dn: uid=q007,ou=east,dc=example\ndo: modify\nreplace: mail\nvalue: new@east.example\nvalue: NEW@east.example\n", 20),
        (search("(mail=new@east.example)"), ["uid=q007,ou=east,dc=example"]),
        ("dn: uid=q007,ou=east,dc=example\ndo: delete\n", None),
        (search("(mail=new@east.example)"), []),
        (f"dn: {changed}\ndo: add\nobjectClass: inetOrgPerson\nuid: p007\nsn: Person\ncn: Person\nmail: new@east.example\n", None),
        (search("(mail=new@east.example)"), [changed]),
        ("dn: cn=easterners,ou=groups,dc=example\ndo: modify\ndelete: member\nvalue: uid=p050,ou=east,dc=example\n", None),
        (search("(member=uid=p050,ou=east,dc=example)"), []),
        (search("(member=uid=p051,ou=east,dc=example)"), ["cn=easterners,ou=groups,dc=example"]),
    ]
    printed = [found(done, number) if isinstance(done, list) else f"# {number} {done or 0}\n" for number, (_request, done) in enumerate(steps, 1)]
    return [Run("ask d s", "".join(printed), "a modify, renames, refused changes, a delete and an add", data=data_file(),
                script="\n".join(request for request, _done in steps))]
