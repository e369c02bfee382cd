#!/usr/bin/env python3
"""Makes data files of people and measures `check` and `dump` over them.

Usage: data.py FOLDER [--program PATH] [--runs N]

The files have a suffix, one unit and people below it, in the order of their names or, where the table
says so, in the opposite order; the last file has an entry more than a tree may have, and is refused. Each
answer is compared with the one that is due.
Seconds are those of the processor, the least of the runs; memory is the most that the program had at
once, and beside it the octets for each entry.
"""
import argparse
import os
import subprocess
import sys

HERE = os.path.dirname(os.path.abspath(__file__))
MOST_ENTRIES = 200_000
DONE, BAD_DATA = 0, 3
HEAD = ('version: 1\n\ndn: dc=bench\nobjectClass: domain\ndc: bench\n')
UNIT = ('\ndn: ou=people,dc=bench\nobjectClass: organizationalUnit\nou: people\n')


def person(number):
    uid = 'u%06d' % number
    return ('\ndn: uid=%s,ou=people,dc=bench\nobjectClass: inetOrgPerson\nuid: %s\ncn: Person %06d\n'
            'sn: Person\nmail: %s@bench.example\ntelephoneNumber: +1 555 %07d\nuserPassword: secret%06d\n'
            % (uid, uid, number, uid, number, number))


def make(path, entries, backwards):
    numbers = range(1, entries - 1)
    with open(path, 'w') as out:
        out.write(HEAD + UNIT)
        for number in reversed(numbers) if backwards else numbers:
            out.write(person(number))


def run(program, words, answer, wanted=DONE):
    """The seconds and the most KiB of one run, whose text and status have to be those wanted."""
    with subprocess.Popen([program] + words, stdout=subprocess.PIPE) as child:
        text = child.stdout.read()
        _, status, usage = os.wait4(child.pid, 0)
        child.returncode = os.waitstatus_to_exitcode(status)
    if child.returncode != wanted or text != answer:
        sys.exit('data.py: wrong answer to %s' % ' '.join(words))
    return usage.ru_utime + usage.ru_stime, usage.ru_maxrss


def tries(path, entries, backwards):
    """The commands to measure over a file of so many entries, each with its text and status."""
    with open(path, 'rb') as file:
        text = file.read()
    if entries <= MOST_ENTRIES:
        check = ('check', b'ok %d 0\n' % entries, DONE)
        return (check,) if backwards else (check, ('dump', text, DONE))
    line = text.count(b'\n', 0, text.rindex(b'dn: ')) + 1
    return (('check', b'bad data line %d: limit\n' % line, BAD_DATA),)


def main():
    parser = argparse.ArgumentParser()
    parser.add_argument('folder')
    parser.add_argument('--program', default=os.path.join(HERE, '..', 'aclserver'))
    parser.add_argument('--runs', type=int, default=3)
    args = parser.parse_args()
    os.makedirs(args.folder, exist_ok=True)
    print('| command | entries | order | file MB | seconds | file MB/s | memory MiB | octets an entry |')
    print('|---|---:|---|---:|---:|---:|---:|---:|')
    tenth = MOST_ENTRIES // 10
    # the small files first: what this program keeps of a file counts in what is measured after it
    for entries, backwards in ((tenth, False), (tenth, True), (MOST_ENTRIES, False), (MOST_ENTRIES, True),
                               (MOST_ENTRIES + 1, False)):
        order = 'opposite' if backwards else 'of names'
        path = os.path.join(args.folder, 'people_%d_%s.ldif' % (entries, order.replace(' ', '_')))
        make(path, entries, backwards)
        size = os.path.getsize(path)
        for command, answer, status in tries(path, entries, backwards):
            runs = [run(args.program, [command, path], answer, status) for _ in range(args.runs)]
            seconds = min(run[0] for run in runs)
            memory = min(run[1] for run in runs)
            print('| `%s` | %s | %s | %.1f | %.2f | %.1f | %.0f | %.0f |' % (
                command, format(entries, ','), order, size / 1e6, seconds, size / 1e6 / seconds, memory / 1024,
                memory * 1024 / entries))


if __name__ == '__main__':
    main()
