#!/usr/bin/env python3
"""Looks up the names that the documents use of the sources.

usage: docs/check_claims.py [--counts]

These are the names in the tables of docs/PROMISES.md, the layers and the sentences of docs/ARCHITECTURE.md, the words
and files of docs/GLOSSARY.md, and README's calls and clauses with their files. Each that is not found is printed, and
the status is then 1. It looks too whether the crates keep to the rules of their map: few that each names, each of them
relied on, nothing imported past them, one stem a module of code, one module of laws, few wrong bodies, and no lemma
cited past a crate's theorems. It reads the sources as text: that a clause says what the sentence beside it says is for
a reader.

With --counts it prints the files of definitions that a sceptic reads, with their lines: those that the tables of
docs/PROMISES.md name, and those whose words they are said in.
"""

import pathlib
import re
import sys

from print_arrows import CRATES, TOP, handed_on, imports, named_below, paths_of_words, split_path

COLUMNS = 6
MOST_EDITS = 3
MOST_NAMED = 6
MOST_NAMED_BY_PROGRAM = 8  # where all comes together
PROGRAM = "acl_program"
MOST_OF_A_GROUP = 8
MOST_OCTETS = 8192


def labels_of_functions(code):
    """The labels of the clauses of each function, by its name; functions of one name together."""
    labels = {}
    name = None
    for line in code.splitlines():
        found = re.match(r" *(?:pub(?:\(crate\))? )?fn (\w+)", line)
        if found:
            name = found.group(1)
            labels.setdefault(name, set())
        elif name is not None:
            labels[name].update(re.findall(r"\bensures (\w+) \{", line))
            if re.match(r" *\{", line):
                name = None
    return labels


def sources(crate, folder, ending):
    """The texts of a crate's folder and of those in it, by file."""
    return {path: path.read_text() for path in sorted((CRATES / crate / folder).rglob("*" + ending))}


class Names:
    """The names that a row may use."""

    def __init__(self):
        self.crates = sorted(path.name for path in CRATES.iterdir() if (path / "src").is_dir())
        code = [text for crate in self.crates for text in sources(crate, "src", ".rt").values()]
        tests = [text for crate in self.crates if crate.endswith("_tests")
                 for text in sources(crate, "src", ".rt").values()]
        self.items = set(re.findall(r"\b(?:fn|struct|enum|trait) (\w+)", "\n".join(code)))
        self.labels = labels_of_functions("\n".join(code))
        self.labels_of_link = set().union(*labels_of_functions((CRATES / "wire_io/src/link.rt").read_text()).values())
        self.tests = set(re.findall(r"#\[test\]\s*fn (\w+)", "\n".join(tests)))
        self.tests |= {name for path in (TOP / "tests").glob("*.py")
                       for name in re.findall(r"^@test\ndef (\w+)", path.read_text(), re.M)}
        self.edits = {path.stem for path in CRATES.glob("*/must-fail/*.edit")}
        self.definitions = {crate: {path.stem: text for path, text in sources(crate, "specs", ".antt").items()}
                            for crate in self.crates}

    def defines(self, crate, word):
        """Whether a definition of the crate has the name."""
        return any(re.search(r"^ *(?:\w+ )*%s\b" % re.escape(word), text, re.M)
                   for text in self.definitions[crate].values())


def quoted(cell):
    """The names in backquotes of a cell."""
    return re.findall(r"`([^`]+)`", cell)


def faults_of_definitions(names, cell):
    """Definition files and definitions of a cell that are not there."""
    for part in cell.split(";"):
        part = part.strip()
        found = re.match(r"`(\w+)` (.*)", part)
        if not found:
            if part and not part.startswith("the library's"):
                yield "no crate in: " + part
            continue
        crate, rest = found.groups()
        if crate not in names.definitions:
            yield "no crate " + crate
            continue
        for word in re.findall(r"`(\w+)`", rest):
            if not names.defines(crate, word):
                yield f"{crate} defines no {word}"
        for module in re.findall(r"\b[A-Z]\w+", re.sub(r"\([^)]*\)", "", rest)):
            if module not in names.definitions[crate]:
                yield f"{crate} has no file of definitions {module}"


def faults_of_calls(names, cell):
    """Calls that are not there, and labels that no clause of the calls beside them has."""
    words = [word for name in quoted(cell) for word in name.split("::")]
    labels = set().union(*(names.labels.get(word, set()) for word in words))
    if "Link" in words:
        labels |= names.labels_of_link
    for word in words:
        if word not in names.items | labels and not word.endswith(".antt"):
            yield "no call here has a clause, and no call is named, " + word


def faults_of_row(names, cells):
    """What a row names that is not there."""
    _promise, definitions, calls, edits, tests, _silent = cells
    yield from faults_of_definitions(names, definitions)
    yield from faults_of_calls(names, calls)
    for name in quoted(edits):
        if name not in names.edits:
            yield "no must-fail edit " + name
    for name in quoted(tests):
        if name not in names.tests:
            yield "no test " + name


def rows_of(text, columns):
    """The rows of the tables of so many columns, with their lines; heads and rules aside."""
    lines = text.splitlines()
    for number, line in enumerate(lines, 1):
        cells = [cell.strip() for cell in line.strip()[1:-1].split("|")]
        is_head = number < len(lines) and lines[number].startswith("|---")
        if line.startswith("| ") and len(cells) == columns and not is_head:
            yield number, cells


def files_of_definitions(names, text):
    """The files of definitions that the tables name, with those whose words they are said in, by crate and module."""
    found, due = set(), [(crate, module) for _number, cells in rows_of(text, COLUMNS)
                         for crate, rest in re.findall(r"`(\w+)` ([^;]*)", cells[1])
                         for module in re.findall(r"\b[A-Z]\w+", re.sub(r"\([^)]*\)", "", rest))]
    while due:
        crate, module = due.pop()
        if (crate, module) in found or module not in names.definitions.get(crate, {}):
            continue
        found.add((crate, module))
        for parts, _words in paths_of_words(names.definitions[crate][module]):
            chain, rest = split_path(parts, names.crates)
            due += [(chain[-1], part) for part in rest[:2] if chain and part[0].isupper()]
    return found


def print_counts(names):
    """Prints the files that a sceptic reads, with their lines."""
    found = files_of_definitions(names, (TOP / "docs" / "PROMISES.md").read_text())
    lines = {(crate, module): len(names.definitions[crate][module].splitlines()) for crate, module in found}
    for crate in (crate for crate in named_below() if any(crate == other for other, _ in found)):
        own = {module: count for (other, module), count in sorted(lines.items()) if other == crate}
        print(f"{crate} {sum(own.values())}: " + ", ".join(f"{module} {count}" for module, count in own.items()))
    print(f"{sum(lines.values())} lines in {len(lines)} files")


def levels(named):
    """How long the longest chain of crates below each one is."""
    height = {}
    for crate, below in named.items():
        height[crate] = 1 + max((height.get(other, 0) for other in below), default=0)
    return height


def faults_of_layers(named):
    """Where the picture of layers or the table of sentences in ARCHITECTURE is not that of crates.txt."""
    text = (TOP / "docs" / "ARCHITECTURE.md").read_text()
    due = {crate: height for crate, height in levels(named).items() if not crate.endswith("_tests")}
    drawn = {crate: int(height) for height, row in re.findall(r"^ {4}( ?\d+)  +(\w.*)$", text, re.M)
             for crate in row.split()}
    for crate in sorted({*due, *drawn}):
        if due.get(crate) != drawn.get(crate):
            yield f"{crate} is drawn on layer {drawn.get(crate)}, and is of layer {due.get(crate)}"
    told = [quoted(cells[0])[0] for _number, cells in rows_of(text, 2)]
    yield from (f"{crate} has {told.count(crate)} sentences" for crate in due if told.count(crate) != 1)
    yield from (f"a sentence of {crate}, which crates.txt does not name" for crate in told if crate not in due)


def faults_of_word(cells):
    """What a row of the glossary names that is not there."""
    _word, _section, here, files = cells
    texts, folder = [], CRATES
    for name in quoted(files):
        path = CRATES / name if "/" in name else folder / name
        folder = path.parent
        if not path.exists():
            yield "no file " + name
            continue
        texts += [path.read_text()] if path.is_file() else [other.read_text() for other in path.glob("*")]
    for word in quoted(here):
        if not any(re.search(r"\b%s\b" % re.escape(word), text) for text in texts):
            yield f"{word} stands in none of its files"


def stem(module):
    """A module of definitions or lemmas as a module of code would be named."""
    return re.sub(r"(?<!^)([A-Z])", r"_\1", module).lower()


def faults_of_modules(crate):
    """Folders and files of definitions and lemmas that do not stand where their names say."""
    folder = CRATES / crate
    code = {path.stem for path in (folder / "src").glob("*.rt")}
    for path in sorted(folder.glob("specs/*")) + sorted(folder.glob("proofs/*")):
        if path.stem.islower() and path.stem not in code:
            yield f"{path.relative_to(CRATES)}: no module of code has that stem"
    for path in sorted(path for path in folder.glob("specs/*") if path.is_dir()):
        if path.name == "laws" or len(list(path.rglob("*.antt"))) < 2:
            yield f"{path.relative_to(CRATES)}: a folder of definitions is of a module of code, and holds two or more"
    for path in sorted(folder.glob("specs/*.antt")):
        if not path.with_suffix("").is_dir() and not re.fullmatch(r"[A-Z][A-Za-z]*", path.stem):
            yield f"{path.relative_to(CRATES)}: no name of a concept"
    concepts = {path.stem for path in folder.glob("specs/[A-Z]*.antt")} - {"Lib"}
    alone = {module for module in concepts if stem(module) not in code}
    for path in sorted(folder.glob("proofs/[A-Z]*.antt")):
        if not re.fullmatch(r"Lib|\w*(Theorems|Examples)", path.stem) and not alone:
            yield f"{crate} has lemmas of no module of code, {path.stem}"


def faults_of_laws(crate):
    """Laws that are not in the one public module of laws."""
    code = {path.stem: path.read_text() for path in (CRATES / crate / "src").glob("*.rt")}
    front = code.get("lib", "")
    if ("laws" in code and "pub mod laws;" not in front) or "pub use laws::" in front:
        yield f"{crate} has no public module of laws"
    yield from (f"{crate} has laws in {module}" for module in sorted(code) if module.endswith("_laws"))


def faults_of_citations(crate, crates):
    """Lemmas of other crates that are cited past their theorems; known cases may unfold what those of a crate unfold."""
    for path, kind, chain, rest, _words in imports(crate, crates):
        unfolds = path.stem == "Examples" and rest and rest[-1] == "OnLiterals"
        if kind == "theorems" and chain[-1] != crate and rest and not rest[0].endswith("Theorems") and not unfolds:
            yield f"{path.relative_to(CRATES)} cites {rest[0]} of {chain[-1]}"


def faults_of_imports(crate, named):
    """Crates that are named and not relied on, and imports of crates that are neither named nor handed on."""
    below, firsts = named[crate], set()
    for path, _kind, chain, _rest, _words in imports(crate, named):
        firsts.add(chain[0])
        for before, other in zip([crate, *chain], chain):
            if other in (before, crate) or other in below:
                continue
            if before == crate:
                yield f"{path.relative_to(CRATES)} takes {other}, which {crate} does not name"
            elif other not in handed_on(before):
                yield f"{path.relative_to(CRATES)} takes {other} of {before}, which does not hand it on"
    yield from (f"{crate} names {other}, of which it imports nothing" for other in below if other not in firsts)


def faults_of_rooms(named):
    """What is against the rules of rooms: few crates to stand on, one stem a module, one module of laws, few edits."""
    for crate, below in named.items():
        if len(below) > (MOST_NAMED_BY_PROGRAM if crate == PROGRAM else MOST_NAMED):
            yield f"{crate} names {len(below)} crates"
        edits = len(list((CRATES / crate / "must-fail").glob("*.edit")))
        if edits > MOST_EDITS:
            yield f"{crate} has {edits} must-fail edits"
        yield from faults_of_modules(crate)
        yield from faults_of_laws(crate)
        yield from faults_of_citations(crate, named)
        yield from sorted(set(faults_of_imports(crate, named)))
    for group in (TOP / "crates.txt").read_text().split("\n\n"):
        count = sum(":" in line for line in group.splitlines() if not line.startswith("#"))
        if count > MOST_OF_A_GROUP:
            yield f"a group of {count} crates"


def faults_of_front(names):
    """What README names that is not there: calls, labels, files, and more octets than a page has."""
    text = (TOP / "README.md").read_text()
    if len(text.encode()) > MOST_OCTETS:
        yield f"{len(text.encode())} octets"
    for line in text.split("## What it promises")[1].split("\n## ")[0].splitlines():
        for words in "; ".join(re.findall(r"\(([^()]*`[^()]*)\)", line)).split("; "):
            files = [word for word in quoted(words) if "/" in word]
            code = "".join((CRATES / word).read_text() for word in files if (CRATES / word).is_file())
            yield from ("no file " + word for word in files if not (CRATES / word).is_file())
            yield from (f"{word} stands in none of its files" for name in quoted(words) if name not in files
                        for word in name.split("::") if not re.search(rf"\b{word}\b", code))
            yield from faults_of_calls(names, " ".join(f"`{word}`" for word in quoted(words) if word not in files))


def faults_of_promises(names):
    """The faults of the tables of promises, with the number of rows that were looked up."""
    text = (TOP / "docs" / "PROMISES.md").read_text()
    faults, named, rows = [], set(), 0
    for number, cells in rows_of(text, COLUMNS):
        rows += 1
        named.update(quoted(cells[3]))
        faults += [f"line {number}: {fault}" for fault in faults_of_row(names, cells)]
    return faults + ["no row names the edit " + edit for edit in sorted(names.edits - named)], rows


def main():
    names, below = Names(), named_below()
    if sys.argv[1:] == ["--counts"]:
        print_counts(names)
        return 0
    faults, rows = faults_of_promises(names)
    faults = ["PROMISES: " + fault for fault in faults]
    faults += ["README: " + fault for fault in faults_of_front(names)]
    faults += ["ARCHITECTURE: " + fault for fault in faults_of_layers(below)]
    for number, cells in rows_of((TOP / "docs" / "GLOSSARY.md").read_text(), 4):
        rows += 1
        faults += [f"GLOSSARY line {number}: {fault}" for fault in faults_of_word(cells)]
    faults += ["rooms: " + fault for fault in faults_of_rooms(below)]
    for fault in faults:
        print(fault)
    print(f"{rows} rows of the documents looked up, {len(faults)} names not found")
    return 1 if faults else 0


if __name__ == "__main__":
    sys.exit(main())
