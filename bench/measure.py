#!/usr/bin/env python3
"""Measures higra, and beside it another program that prints the same bytes, interleaved.

  measure.py [--program CMD] [--beside CMD] [--cases WORD,..] [--inputs FOLDER] [--rounds N]

--program  the program that is measured (default: bin/higra of this repository)
--beside   another program that takes the same words; it may ignore --tile and --workers. Its bytes are compared first
--cases    of: tree, reports, hierarchies, lists, largest, growth (default: all but largest)
--inputs   a folder that inputs.py wrote, made if it isn't there (largest: with --largest)
--rounds   how often each runs (default 5); every round runs each program once, so that a disturbance falls on both

A row has the median of the wall time of the whole process, its peak memory, and the ratio of the medians. On a machine
that does other work, the ratios are what counts.
"""
import argparse
import hashlib
import os
import shlex
import statistics
import subprocess
import sys
import tempfile
import time

TOP = os.path.dirname(os.path.dirname(os.path.abspath(__file__)))
MADE = '--make 1024'
REPORTS = ['zones', 'saliency', 'attributes', 'minima', 'watershed', 'summary', 'cut --level 10']
HIERARCHIES = ['hierarchical', 'cut --kind area --level 100', 'mintree', 'maxtree', 'energy --level 100']
LISTS = ['sparse', 'star', 'mixed_star', 'hubs', 'path', 'falling_path', 'parallel']
PICTURES = ['hills', 'flat', 'ramp']


def cases(word):
    """The runs of a word: the words of a run, and the input's name or None."""
    if word == 'tree':
        return [(f'tree {MADE} --workers {n}', None) for n in (4, 2, 1)] + [('tree', name) for name in PICTURES]
    if word == 'reports':
        return [(f'{report} {MADE} --workers 4', None) for report in REPORTS]
    if word == 'hierarchies':
        return [(f'{report} {MADE} --workers 4', None) for report in HIERARCHIES]
    if word == 'lists':
        return [('tree', name) for name in LISTS]
    if word == 'largest':
        return [('tree', 'largest'), ('tree --tile 1048576', 'largest'), ('tree', 'largest_star')]
    if word == 'growth':
        return [(f'tree --make {side} --workers 4', None) for side in (256, 512, 1024)]
    sys.exit(f'measure.py: no cases are named {word}')


def input_at(folder, name):
    return next(path for path in (os.path.join(folder, name + end) for end in ('.graph', '.pgm')) if os.path.exists(path))


def inputs_in(folder, largest):
    wanted = 'largest.graph' if largest else 'ramp.pgm'
    if not os.path.exists(os.path.join(folder, wanted)):
        print(f'writing the inputs into {folder}', file=sys.stderr)
        script = os.path.join(TOP, 'bench', 'inputs.py')
        subprocess.run([sys.executable, script, folder] + ['--largest'] * largest, check=True)


def run(words, source, out):
    """Seconds, and the peak memory in MB, of one process that ends with status 0."""
    with open(source or os.devnull, 'rb') as given:
        began = time.perf_counter()
        child = subprocess.Popen(words, stdin=given, stdout=out)
        _, status, usage = os.wait4(child.pid, 0)
        seconds = time.perf_counter() - began
    child.returncode = os.waitstatus_to_exitcode(status)
    if child.returncode:
        sys.exit(f'measure.py: {shlex.join(words)} ended with {child.returncode}')
    return seconds, usage.ru_maxrss / 1024


def bytes_of(words, source):
    with tempfile.TemporaryFile() as out:
        run(words, source, out)
        out.seek(0)
        return hashlib.file_digest(out, 'sha256').hexdigest()


def measured(programs, words, source, rounds):
    """For each program the median of the seconds and the greatest peak memory."""
    found = [[] for _ in programs]
    with open(os.devnull, 'wb') as out:
        for _ in range(rounds):
            for program, runs in zip(programs, found):
                runs.append(run(program + words, source, out))
    return [(statistics.median(s for s, _ in runs), max(mb for _, mb in runs)) for runs in found]


def tell(case, name, figures):
    row = f'{case} < {name}' if name else case
    columns = [f'{seconds:8.3f} s {megabytes:6.0f} MB' for seconds, megabytes in figures]
    ratio = f'{figures[0][0] / figures[1][0]:6.2f}' if len(figures) > 1 else ''
    print(f'{row:44s}', *columns, ratio, sep='  ', flush=True)


def main():
    words = argparse.ArgumentParser(description=__doc__, formatter_class=argparse.RawDescriptionHelpFormatter)
    words.add_argument('--program', default=os.path.join(TOP, 'bin', 'higra'))
    words.add_argument('--beside')
    words.add_argument('--cases', default='tree,reports,hierarchies,lists,growth')
    words.add_argument('--inputs', default=os.path.join(tempfile.gettempdir(), 'higra-inputs'))
    words.add_argument('--rounds', type=int, default=5)
    given = words.parse_args()
    programs = [shlex.split(it) for it in (given.program, given.beside) if it]
    chosen = given.cases.split(',')
    inputs_in(given.inputs, 'largest' in chosen)
    differ = []
    for case, name in [it for word in chosen for it in cases(word)]:
        source = input_at(given.inputs, name) if name else None
        asked = shlex.split(case)
        if len({bytes_of(program + asked, source) for program in programs}) > 1:
            differ.append(f'{case} {name or ""}')
            print(f'{case} {name or ""}: the bytes differ', flush=True)
        tell(case, name, measured(programs, asked, source, given.rounds))
    if differ:
        sys.exit(f'{len(differ)} reports differ')


main()
