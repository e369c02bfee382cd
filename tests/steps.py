"""Requests of several people over one connection, of whom each binds before its own, and what is left behind them."""

from program import Run

# The password of all who bind.
PASSWORD = "pw"

# A request for all entries but the subentries with all that may be read of them, and one for the subentries.
LOOKS = ["dn: {}\ndo: search\nscope: sub\nsubentries: FALSE\nselect: *\nselect: +\n",
         "dn: {}\ndo: search\nscope: sub\nsubentries: TRUE\nselect: *\nselect: +\n"]


def records(data):
    """The records of a data file, with their lines unfolded."""
    return data.replace("\n ", "").strip("\n").split("\n\n")


def named(name):
    """The first line of a record."""
    return f"dn: {name}\n"


def without(data, name):
    """The data file without the entry of a name."""
    return "\n\n".join(record for record in records(data) if not record.startswith(named(name))) + "\n"


def with_before(data, name, record):
    """The data file with a record before that of a name, or behind all where none is given."""
    if name is None:
        return f"{data}\n{record}"
    front, line, rest = data.partition(named(name))
    return f"{front}{record}\n{line}{rest}"


def put(data):
    """What is put of all entries of the data file but the subentries, and of the subentries."""
    subentries = [record for record in records(data) if "\nobjectClass: subentry\n" in record]
    others = [record for record in records(data) if record not in subentries]
    return ["".join(f"\n{record}\n" for record in found) for found in (others, subentries)]


def asked(data, rows, what=""):
    """A run over a data file: of each row who asks, or None for the one before, the request, its code with the matched
    name, and what is found."""
    script, wanted = [], ""
    for who, request, answer, *found in rows:
        if who is not None:
            script.append(f"dn: {who}\ndo: bind\npassword: {PASSWORD if who else ''}\n")
            wanted += f"# {len(script)} 0\n"
        script.append(request)
        wanted += f"{''.join(found)}# {len(script)} {answer}\n"
    return Run("ask d s", wanted, what, data=data, script="\n".join(script))


def steps(data, rows, what, looker, left=None):
    """The same, where one looks at all entries behind the others: the data file as it was, where it is no other one."""
    suffix = data.partition("\n")[0].removeprefix("dn: ")
    looks = [(looker, look.format(suffix), "0", found) for look, found in zip(LOOKS, put(left or data))]
    return asked(data, [*rows, *looks], what)


def add(name, lines):
    """A request for an entry with these lines of attributes to be added."""
    return f"dn: {name}\ndo: add\n{lines}"


def delete(name):
    """A request for an entry to be deleted."""
    return f"dn: {name}\ndo: delete\n"


def modify(name, lines):
    """A request for an entry to be changed by these groups of lines."""
    return f"dn: {name}\ndo: modify\n{lines}"


def rename(name, rdn, superior=None, keep=False):
    """A request for an entry to have another RDN, and another superior where one is given, and to keep the old values."""
    lines = ["newrdn: " + rdn, *(["keep: TRUE"] if keep else []), *([] if superior is None else ["newsuperior: " + superior])]
    return f"dn: {name}\ndo: rename\n" + "".join(line + "\n" for line in lines)
