#!/usr/bin/env python3
"""Prints what each crate relies on of each crate below it, as its sources name it.

usage: docs/print_arrows.py [CRATE..]

Of each crate, or of those that are given: for each crate of ours that it imports of, the calls and types that its code
names, the words of definitions that its clauses, definitions and proofs name, and the theorems that its proofs cite.
A crate that another hands on is shown under its own name.
"""

import pathlib
import re
import sys

TOP = pathlib.Path(__file__).resolve().parent.parent
CRATES = TOP / "crates"
KINDS = ("calls", "words", "theorems")


def named_below():
    """The crates of ours that each crate names in crates.txt, in the order of that file."""
    lines = (TOP / "crates.txt").read_text().splitlines()
    pairs = [line.split(":", 1) for line in lines if ":" in line and not line.startswith("#")]
    names = {name.strip() for name, _ in pairs}
    return {name.strip(): [other for other in below.split() if other in names] for name, below in pairs}


def handed_on(crate):
    """The crates below that a crate hands on to those above it, as code, words or theorems."""
    files = ("src/lib.rt", "specs/Lib.antt", "proofs/Lib.antt")
    lines = [(CRATES / crate / name).read_text() for name in files if (CRATES / crate / name).exists()]
    return {name for text in lines for name in re.findall(r"^pub use (?:\w+::)*([a-z]\w*);", text, re.M)
            + re.findall(r"^pub use Rattle\..* as (\w+?)(?:_proofs)?$", text, re.M)}


def split_path(parts, crates):
    """The crates that a path begins with, each handed on by the one before, and the rest of it."""
    chain = []
    while parts:
        name = re.sub(r"_proofs$", "", parts[0])
        if name in crates:
            chain.append(name)
        elif parts[0] not in ("specs", "proofs"):
            break
        parts = parts[1:]
    return chain, parts


def without_comments(text, mark):
    return re.sub(rf"(?m)(^|\s){mark}.*$", "", text)


def names_in(braces):
    """The names that stand in braces behind a path, if any do."""
    return [word.split(" as ")[0].strip() for word in (braces or "").split(",") if word.strip()]


def paths_of_code(text, crates):
    """The paths of code that begin with a crate's name, with what is taken of each."""
    names = "|".join(sorted(crates))
    for found in re.finditer(rf"(?<![\w:.])((?:{names})(?:::\w+)*)(?:::\{{([^{{}}]*)\}})?", text):
        parts = found[1].split("::")
        if found[2] is not None:
            yield parts, names_in(found[2])
        elif len(parts) > 1 or re.search(r"use (?:\w+::)*$", text[: found.start()]):
            yield parts, []


def paths_of_words(text):
    """The paths of definitions and proofs, with the words that are taken of each."""
    for found in re.finditer(r"\bRattle\.([\w.]+?)(?:\.\{([^}]*)\}|(?=[^\w.]|\.?$))", text, re.M):
        yield found[1].split("."), names_in(found[2])


def imports(crate, crates):
    """Each import of a crate: its file, its kind, the crates that its path goes through, the rest, and the words."""
    for path in sorted((CRATES / crate).rglob("*.rt")) + sorted((CRATES / crate).rglob("*.antt")):
        if path.relative_to(CRATES / crate).parts[0] not in ("src", "specs", "proofs"):
            continue
        text = without_comments(path.read_text(), "//" if path.suffix == ".rt" else "--")
        for parts, words in paths_of_words(text):
            chain, rest = split_path(parts, crates)
            is_theorem = "proofs" in parts or any(part.endswith("_proofs") for part in parts)
            if chain:
                yield path, "theorems" if is_theorem else "words", chain, rest, words
        if path.suffix == ".rt":
            for parts, words in paths_of_code(re.sub(r"\bghost use [^;]*;", "", text), crates):
                chain, rest = split_path(parts, crates)
                yield path, "words" if "specs" in parts else "calls", chain, rest, words


def relied_on(crate, crates):
    """What a crate names of each other crate, by kind."""
    found = {}
    for _path, kind, chain, rest, words in imports(crate, crates):
        if chain[-1] != crate:
            of_other = found.setdefault(chain[-1], {kind: set() for kind in KINDS})
            of_other[kind].update(words or (rest[-1:] if kind != "calls" else rest[:1]))
    return found


def main(chosen):
    crates = named_below()
    for crate in chosen or crates:
        print(crate)
        found = relied_on(crate, crates)
        for other in (name for name in crates if name in found):
            print(f"  of {other}" + ("" if any(found[other].values()) else ": handed on"))
            for kind in KINDS:
                if found[other][kind]:
                    print(f"    {kind}: {', '.join(sorted(found[other][kind]))}")


if __name__ == "__main__":
    main(sys.argv[1:])
