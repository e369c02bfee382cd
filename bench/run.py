#!/usr/bin/env python3
"""Runs the program on the scripts, checks its answers, and prints what they cost."""

import argparse
import filecmp
import json
import os
import sys
import tempfile
import time
from pathlib import Path
from typing import NamedTuple

PIECE = 65_536
PROGRAM = Path(__file__).resolve().parent.parent / "aclserver"
COLUMNS = (
    "script           ",
    "   seconds",
    " messages/s",
    " script MB/s",
    " sent MB/s",
    " memory MiB",
    " memory/file",
    " time/copy",
)


class Cost(NamedTuple):
    """Processor seconds, octets of memory at the most, and the seconds of a copy of the script."""

    seconds: float
    memory: int
    copied: float


class Bench(NamedTuple):
    """The program, the folder of the scripts, and where output is put."""

    program: str
    folder: Path
    output: str


def spawn(bench, name):
    """Starts the program on a script, with its standard output in the file for it."""
    words = [bench.program, "replay", str(bench.folder / "one.ldif")]
    words.append(str(bench.folder / f"{name}.script"))
    flags = os.O_WRONLY | os.O_CREAT | os.O_TRUNC
    opened = (os.POSIX_SPAWN_OPEN, 1, bench.output, flags, 0o600)
    return os.posix_spawn(bench.program, words, os.environ, file_actions=[opened])


def complaint(bench, case, status):
    """What is wrong with the status or the output of a run, or nothing."""
    if status != case["status"]:
        return f"{case['name']}: status {status} instead of {case['status']}"
    if not filecmp.cmp(bench.folder / f"{case['name']}.answer", bench.output, shallow=False):
        return f"{case['name']}: not the answer that is due"
    return ""


def copy(source_path, target_path):
    """Copies a file in pieces, and gives the processor seconds."""
    with open(source_path, "rb", buffering=0) as source:
        with open(target_path, "wb", buffering=0) as target:
            start = time.process_time()
            while piece := source.read(PIECE):
                target.write(piece)
            return time.process_time() - start


def run(bench, case):
    """Runs the program once, checks it, and gives what it and a copy of its script cost."""
    _, ended, usage = os.wait4(spawn(bench, case["name"]), 0)
    wrong = complaint(bench, case, os.waitstatus_to_exitcode(ended))
    if wrong:
        sys.exit(wrong)
    copied = copy(bench.folder / f"{case['name']}.script", bench.output)
    return Cost(usage.ru_utime + usage.ru_stime, usage.ru_maxrss * 1024, copied)


def measure(bench, cases, runs):
    """The least costs of each script, by its name, over rounds through all scripts."""
    rounds = [[run(bench, case) for case in cases] for _ in range(runs)]
    return {
        case["name"]: Cost(*map(min, zip(*costs))) for case, costs in zip(cases, zip(*rounds))
    }


def without(idle, cost):
    """The cost without the seconds of an empty run."""
    return cost._replace(seconds=cost.seconds - idle.seconds)


def rate(amount, seconds, digits):
    """An amount a second, or a dash where there is nothing to count."""
    if amount == 0 or seconds <= 0:
        return "-"
    return f"{amount / seconds:,.{digits}f}"


def figures(case, cost):
    """The cells of a script's row."""
    size = case["script_octets"]
    return (
        case["name"],
        f"{cost.seconds:.4f}",
        rate(case["messages"], cost.seconds, 0),
        rate(size / 1e6, cost.seconds, 1),
        rate(case["octets"] / 1e6, cost.seconds, 2),
        f"{cost.memory / 2**20:.1f}",
        f"{cost.memory / size:.1f}",
        rate(cost.seconds, cost.copied, 1),
    )


def print_row(cells):
    """Prints cells as a row of a table, the first to the left and the others to the right."""
    first, *others = zip(cells, map(len, COLUMNS))
    aligned = [first[0].ljust(first[1])] + [cell.rjust(width) for cell, width in others]
    print("| " + " | ".join(aligned) + " |")


def print_costs(cases, costs):
    """Prints the costs of the scripts as a table."""
    print_row(COLUMNS)
    print_row(["-" * len(column) for column in COLUMNS])
    for case in cases:
        print_row(figures(case, costs[case["name"]]))


def print_growth(costs):
    """Prints how much dearer each script is than the one of half its size."""
    print("\ntimes the half: 2 is linear, 4 is quadratic")
    for name, half in costs.items():
        whole = name.removesuffix("_half")
        if whole != name and whole in costs and half.seconds > 0:
            print(f"{whole:18} {costs[whole].seconds / half.seconds:.2f}")


def chosen(folder, names):
    """The empty script, and the others that have one of the names; all where there are none."""
    cases = json.loads((folder / "cases.json").read_text())
    missing = set(names) - {case["name"] for case in cases}
    if missing:
        sys.exit("no such script: " + ", ".join(sorted(missing)))
    empty = next(case for case in cases if case["name"] == "empty")
    others = [case for case in cases if case is not empty]
    return empty, [case for case in others if not names or case["name"] in names]


def arguments():
    """The words of the command line."""
    parser = argparse.ArgumentParser(description=__doc__)
    parser.add_argument("folder", type=Path, help="where make_scripts.py put the scripts")
    parser.add_argument("names", nargs="*", help="the scripts to run; all where none is named")
    parser.add_argument("--program", default=str(PROGRAM), help="default: %(default)s")
    parser.add_argument("--runs", type=int, default=3, help="default: %(default)s")
    return parser.parse_args()


def main():
    """Measures an empty run and the scripts, and prints the tables."""
    words = arguments()
    empty, cases = chosen(words.folder, words.names)
    with tempfile.NamedTemporaryFile() as output:
        bench = Bench(os.path.abspath(words.program), words.folder, output.name)
        # the launcher may build the program in its first run
        run(bench, empty)
        costs = measure(bench, [empty] + cases, words.runs)
    idle = costs.pop(empty["name"])
    costs = {name: without(idle, cost) for name, cost in costs.items()}
    print(f"{os.cpu_count()} processors, load {os.getloadavg()[0]:.1f}")
    print(f"an empty run: {idle.seconds:.4f} s, {idle.memory / 2**20:.1f} MiB\n")
    print_costs(cases, costs)
    print_growth(costs)


if __name__ == "__main__":
    main()
