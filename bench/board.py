#!/usr/bin/env python3
"""Measures the board's part of a run: what its workers gain.

  board.py [--program CMD] [--side N] [--rounds N]

--program  higra (default: the built program of this repository, without the script in bin/)
--side     the side of the made picture (default 1024)
--rounds   how often each number of workers runs (default 3)

`perf record` samples a run of `tree`; the board's part lasts from the first to the last sample in a function of the board or of the
climbing. A row has a number of workers, the median of that time in seconds, and how many times as long one worker takes.
"""
import argparse
import os
import re
import shlex
import statistics
import subprocess
import sys
import tempfile

TOP = os.path.dirname(os.path.dirname(os.path.abspath(__file__)))
BUILT = os.path.join(TOP, 'crates', 'higra_main', 'out', 'higra_main')
# The functions of the board's part, as perf names them.
BOARD = ('merge_board::working', 'merge_board::serving', 'border_climb::part::Part::give', 'border_climb::splicing')


def board_seconds(program, side, workers):
    """How long the board's part of one run lasted."""
    with tempfile.NamedTemporaryFile() as samples:
        words = program + ['tree', '--make', str(side), '--workers', str(workers)]
        ran = subprocess.run(['perf', 'record', '-q', '-F', '10000', '-g', '-o', samples.name, *words],
                             stdout=subprocess.DEVNULL, stderr=subprocess.PIPE, check=False)
        if ran.returncode:
            sys.exit(f'board.py: {shlex.join(words)} ended with {ran.returncode}: {ran.stderr.decode()}')
        told = subprocess.run(['perf', 'script', '-i', samples.name, '-F', 'tid,time,ip,sym'],
                              stdout=subprocess.PIPE, stderr=subprocess.DEVNULL, text=True, check=True).stdout
    times = [float(re.match(r'\s*\d+\s+([\d.]+):', sample).group(1))
             for sample in told.split('\n\n') if any(name in sample for name in BOARD)]
    if not times:
        sys.exit('board.py: no sample is in the board')
    return max(times) - min(times)


def main():
    words = argparse.ArgumentParser(description=__doc__, formatter_class=argparse.RawDescriptionHelpFormatter)
    words.add_argument('--program', default=BUILT)
    words.add_argument('--side', type=int, default=1024)
    words.add_argument('--rounds', type=int, default=3)
    given = words.parse_args()
    one = None
    for workers in (1, 2, 4):
        runs = [board_seconds(shlex.split(given.program), given.side, workers) for _ in range(given.rounds)]
        seconds = statistics.median(runs)
        one = one or seconds
        print(f'{workers} workers  {seconds:7.3f} s  {one / seconds:5.2f}', flush=True)


main()
