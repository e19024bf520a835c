#!/usr/bin/env python3
"""Runs higra on the largest inputs, and compares its bytes with those of another program.

  limits.py --beside CMD [--program CMD] [--inputs FOLDER] [--only WORD]

--beside   a program that takes the same words and prints the same bytes; it may ignore --tile and --workers
--program  the program that is tried (default: bin/higra of this repository)
--inputs   a folder that bench/inputs.py wrote with --largest, made if it isn't there
--only     only the runs that have this word

A row has a run, its seconds, its peak memory and that of the other program. The last line is `N passed, M failed`: a run
passes where both programs end with status 0, the bytes are the same, and the peak memory of higra is below 2 GB.
"""
import argparse
import hashlib
import os
import shlex
import subprocess
import sys
import tempfile
import time
from dataclasses import dataclass

TOP = os.path.dirname(os.path.dirname(os.path.abspath(__file__)))
LARGEST_MEMORY = 2_000_000_000
REPORTS = ['tree', 'zones', 'saliency', 'attributes', 'minima', 'watershed', 'hierarchical', 'hierarchical --kind area',
           'hierarchical --kind volume', 'cut --level 100000000', 'cut --kind area --level 100', 'energy --level 100000',
           'summary']
PICTURE_REPORTS = REPORTS + ['mintree', 'maxtree', 'cut --level 65535 --form pgm']
TILINGS = ['--workers 1', '--workers 64']
# In each of these an input is cut into 65,536 tiles, or is one tile.
LIST_TILES = ['--tile 16', '--tile 1048576']
SQUARE_TILES = ['--tile 4', '--tile 1024']

RUNS = [(report, 'largest.graph') for report in REPORTS]
RUNS += [(f'tree {option}', 'largest.graph') for option in TILINGS + LIST_TILES]
RUNS += [(report, 'largest_square.pgm') for report in PICTURE_REPORTS]
RUNS += [(f'tree {option}', 'largest_square.pgm') for option in TILINGS + SQUARE_TILES]
RUNS += [(f'tree {option}'.strip(), name) for name in ('largest_star.graph', 'largest_row.pgm', 'largest_column.pgm')
         for option in [''] + TILINGS + LIST_TILES]


@dataclass
class Ran:
    """How a process ended."""
    status: int
    seconds: float
    memory: int
    digest: str


def run(words, source):
    with open(source, 'rb') as given, tempfile.TemporaryFile() as out:
        began = time.perf_counter()
        child = subprocess.Popen(words, stdin=given, stdout=out)
        _, status, usage = os.wait4(child.pid, 0)
        seconds = time.perf_counter() - began
        child.returncode = os.waitstatus_to_exitcode(status)
        out.seek(0)
        return Ran(child.returncode, seconds, usage.ru_maxrss * 1024, hashlib.file_digest(out, 'sha256').hexdigest())


def judged(own, other):
    """What is wrong with a run, or nothing."""
    if (own.status, other.status) != (0, 0):
        return f'statuses {own.status} and {other.status}'
    if own.digest != other.digest:
        return 'the bytes differ'
    return '' if own.memory < LARGEST_MEMORY else 'too much memory'


def tell(words, name, own, other):
    wrong = judged(own, other)
    columns = f'{own.seconds:.1f} s | {own.memory // 1_000_000} MB | {other.memory // 1_000_000} MB'
    print(f'| `{words} < {name}` | {columns} |{wrong and " FAILED: " + wrong}', flush=True)
    return not wrong


def write_inputs(folder):
    if not os.path.exists(os.path.join(folder, 'largest_square.pgm')):
        print(f'writing the inputs into {folder}', file=sys.stderr)
        subprocess.run([sys.executable, os.path.join(TOP, 'bench', 'inputs.py'), folder, '--largest'], check=True)


def main():
    words = argparse.ArgumentParser(description=__doc__, formatter_class=argparse.RawDescriptionHelpFormatter)
    words.add_argument('--beside', required=True)
    words.add_argument('--program', default=os.path.join(TOP, 'bin', 'higra'))
    words.add_argument('--inputs', default=os.path.join(tempfile.gettempdir(), 'higra-inputs'))
    words.add_argument('--only', default='')
    given = words.parse_args()
    own, other = shlex.split(given.program), shlex.split(given.beside)
    write_inputs(given.inputs)
    passed = []
    for asked, name in [it for it in RUNS if given.only in ' < '.join(it)]:
        source = os.path.join(given.inputs, name)
        passed.append(tell(asked, name, run(own + asked.split(), source), run(other + asked.split(), source)))
    print(f'{sum(passed)} passed, {len(passed) - sum(passed)} failed')
    sys.exit(0 if all(passed) else 1)


if __name__ == '__main__':
    main()
