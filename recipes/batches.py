#!/usr/bin/env python3
"""Packs many edge lists into batches for higra_batch, and takes its answers apart again.

  batches.py pack FOLDER FILE..  [--size N]   writes FOLDER/0000.in, FOLDER/0000.names and so on
  batches.py unpack FOLDER ANSWERS            writes ANSWERS/NAME for each file that was answered

A batch has N files (default 100), with a byte 12 between each two; its .names has their names, a line each. A file that
has a byte 12 of its own is refused, since it would be cut there, and so are two files of one name. unpack reads each FOLDER/*.out beside its .names. It
prints the batches that have no whole answer and the files that have a fault, and ends with status 1 where there are some.
"""
import argparse
import os
import sys

CUT = b'\x0c'


def pack(folder, files, size):
    if len({os.path.basename(name) for name in files}) < len(files):
        sys.exit('batches.py: two of the files have one name')
    os.makedirs(folder, exist_ok=True)
    for number, first in enumerate(range(0, len(files), size)):
        names = files[first:first + size]
        pieces = []
        for name in names:
            with open(name, 'rb') as file:
                pieces.append(file.read())
            if CUT in pieces[-1]:
                sys.exit(f'batches.py: {name} has a byte 12')
        stem = os.path.join(folder, f'{number:04}')
        with open(stem + '.in', 'wb') as file:
            file.write(CUT.join(pieces))
        with open(stem + '.names', 'w') as file:
            file.writelines(name + '\n' for name in names)


def jobs_in(data):
    """The answers of a batch in order: each is the bytes of a report, or the words of a fault."""
    jobs, at = [], 0
    while at < len(data):
        end = data.index(b'\n', at)
        words = data[at:end].decode().split(' ')
        at = end + 1
        if words[2] == '0':
            length = int(words[3])
            if at + length > len(data):
                raise ValueError('the last report is cut')
            jobs.append(data[at:at + length])
            at += length
        else:
            jobs.append(words[3:])
    return jobs


def answers_of(stem, names):
    """The answers of a batch, or None where they are not whole."""
    try:
        with open(stem + '.out', 'rb') as file:
            jobs = jobs_in(file.read())
    except (OSError, ValueError, IndexError):
        return None
    return jobs if len(jobs) == len(names) else None


def unpack(folder, answers):
    os.makedirs(answers, exist_ok=True)
    is_whole = True
    for entry in sorted(os.listdir(folder)):
        stem, end = os.path.splitext(os.path.join(folder, entry))
        if end != '.names':
            continue
        with open(stem + end) as file:
            names = file.read().splitlines()
        jobs = answers_of(stem, names)
        if jobs is None:
            is_whole = False
            print(f'no whole answer: {stem}.in')
            continue
        for name, job in zip(names, jobs):
            if isinstance(job, bytes):
                with open(os.path.join(answers, os.path.basename(name)), 'wb') as file:
                    file.write(job)
            else:
                is_whole = False
                number, kind, at, value = job
                print(f'fault: {name}: {number} {kind} at {at} value {value}')
    return is_whole


def main():
    words = argparse.ArgumentParser(description=__doc__, formatter_class=argparse.RawDescriptionHelpFormatter)
    deeds = words.add_subparsers(dest='deed', required=True)
    packing = deeds.add_parser('pack')
    packing.add_argument('folder')
    packing.add_argument('files', nargs='+')
    packing.add_argument('--size', type=int, default=100)
    unpacking = deeds.add_parser('unpack')
    unpacking.add_argument('folder')
    unpacking.add_argument('answers')
    given = words.parse_args()
    if given.deed == 'pack':
        pack(given.folder, given.files, given.size)
    elif not unpack(given.folder, given.answers):
        sys.exit(1)


main()
