#!/usr/bin/env python3
"""Runs the tests of the whole programs that are data: words and files, what is put, and how the program ends.

usage: tests/run.py [PROGRAM [NAME..]]

PROGRAM is the server that the gate built, where no other is given; the audit lies beside it, or in its own crate as the
server does. With names only these tests run. Each run has a folder of its own with the files `d` and `s`. The status is 1
where a run came to another end than its row says.
"""

import concurrent.futures
import importlib
import os
import pathlib
import subprocess
import sys
import tempfile

import program

HERE = pathlib.Path(__file__).resolve().parent
BUILT = HERE.parent / "crates/aclserver/out/aclserver"


def path_of(server, name):
    """The path of a program, by that of the server."""
    beside = server.with_name(name)
    return beside if beside.exists() else server.parents[2] / name / "out" / name


def difference(path, run):
    """How a run of the program at the path came to another end than its row says; None where it did not."""
    words = run.line.split() if isinstance(run.line, str) else run.line
    with tempfile.TemporaryDirectory() as folder:
        (pathlib.Path(folder) / "d").write_text(run.data, newline="")
        (pathlib.Path(folder) / "s").write_text(run.script, errors="surrogateescape", newline="")
        ran = subprocess.run([path, *words], cwd=folder, capture_output=True, timeout=600)
    if (ran.stdout, ran.returncode) == (run.put.encode(), run.status):
        return None
    return f"{run.line} ({run.what[:200]})\n  wanted {run.status} {run.put[:2000]!r}\n  found  {ran.returncode} {ran.stdout[:2000]!r}"


def main(words):
    server = pathlib.Path(words[0] if words else BUILT).absolute()
    for module in sorted(HERE.glob("*.py")):
        if module.stem != "run":
            importlib.import_module(module.stem)
    tests = [test for test in program.TESTS if not words[1:] or test.__name__ in words[1:]]
    rows = [(test.__name__, run) for test in tests for run in test()]
    with concurrent.futures.ThreadPoolExecutor(os.cpu_count()) as runs:
        found = list(runs.map(lambda row: difference(path_of(server, row[1].program), row[1]), rows))
    failed = [f"{name}: {text}" for (name, _run), text in zip(rows, found) if text]
    print("\n".join([*failed, f"tests of the programs: {len(tests)}, runs {len(rows)}, failed {len(failed)}"]))
    return 1 if failed or not rows else 0


if __name__ == "__main__":
    sys.exit(main(sys.argv[1:]))
