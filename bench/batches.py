#!/usr/bin/env python3
"""Measures many small edge lists: in batches, and one run for each list.

  batches.py [--program CMD] [--batch CMD] [--lists N] [--vertices N] [--edges N] [--rounds N] [--inputs FOLDER]

--program, --batch  higra and higra_batch (default: the built programs of this repository, without the scripts in bin/)
--lists             how many lists (default 4,000)
--vertices, --edges how many each of them has (default 1,000 and 2,000); the edges are random
--rounds            how often each way runs (default 3); every round runs each way once
--inputs            a folder for the lists (default: one for temporary files)

A row has a way, the median of its seconds, and how many times as long it takes as the fastest. The ways are one batch with 1, 2
and 4 workers; a loop of the shell that runs higra for each list; and GNU parallel that does the same four at a time.
Each way's reports are compared first.
"""
import argparse
import os
import random
import shlex
import statistics
import subprocess
import sys
import tempfile
import time

TOP = os.path.dirname(os.path.dirname(os.path.abspath(__file__)))


def random_list(chance, vertices, edges):
    """A list of so many vertices and random edges between them."""
    ends = [chance.sample(range(vertices), 2) for _ in range(edges)]
    return f'graph {vertices} {edges}\n' + ''.join(f'{u} {v} {chance.randrange(1000)}\n' for u, v in ends)


def write_lists(folder, given):
    """Writes the lists and one batch of them all."""
    chance = random.Random(5)
    lists = [random_list(chance, given.vertices, given.edges) for _ in range(given.lists)]
    for number, text in enumerate(lists):
        with open(os.path.join(folder, f'{number:04}.graph'), 'w') as file:
            file.write(text)
    with open(os.path.join(folder, 'all.in'), 'w') as file:
        file.write('\x0c'.join(lists))


def ways(program, batch):
    """The ways by name, as commands of the shell, and whether they answer a batch."""
    found = {f'one batch, --workers {workers}': (f'{batch} tree --workers {workers} < all.in > all.out', True)
             for workers in (1, 2, 4)}
    found['a loop of the shell'] = f'for list in *.graph; do {program} tree --workers 1 < $list > $list.out; done', False
    found['GNU parallel, 4 at a time'] = f"ls | grep 'graph$' | parallel -j 4 '{program} tree --workers 1 < {{}} > {{}}.out'", False
    return found


def run(command, folder):
    began = time.perf_counter()
    subprocess.run(['bash', '-c', command], cwd=folder, check=True)
    return time.perf_counter() - began


def content(path):
    with open(path, 'rb') as file:
        return file.read()


def answer(folder, count, is_batch):
    """The answer of a batch, or what it would be with these reports."""
    if is_batch:
        return content(os.path.join(folder, 'all.out'))
    reports = [content(os.path.join(folder, f'{number:04}.graph.out')) for number in range(count)]
    return b''.join(b'job %d 0 %d\n' % (number, len(report)) + report for number, report in enumerate(reports))


def tell(name, seconds, least):
    print(f'| {name} | {seconds:.2f} s | {seconds / least:.1f} |', flush=True)


def measure(given, folder):
    built = {crate: os.path.join(TOP, 'crates', crate, 'out', crate) for crate in ('higra_main', 'higra_batch')}
    found = ways(shlex.quote(os.path.abspath(given.program or built['higra_main'])),
                 shlex.quote(os.path.abspath(given.batch or built['higra_batch'])))
    write_lists(folder, given)
    first, seconds = None, {name: [] for name in found}
    for _ in range(given.rounds):
        for name, (command, is_batch) in found.items():
            seconds[name].append(run(command, folder))
            own = answer(folder, given.lists, is_batch)
            first = first or own
            if own != first:
                sys.exit(f'batches.py: {name} gives other reports')
    medians = {name: statistics.median(each) for name, each in seconds.items()}
    for name, median in medians.items():
        tell(name, median, min(medians.values()))


def main():
    words = argparse.ArgumentParser(description=__doc__, formatter_class=argparse.RawDescriptionHelpFormatter)
    words.add_argument('--program')
    words.add_argument('--batch')
    words.add_argument('--lists', type=int, default=4000)
    words.add_argument('--vertices', type=int, default=1000)
    words.add_argument('--edges', type=int, default=2000)
    words.add_argument('--rounds', type=int, default=3)
    words.add_argument('--inputs')
    given = words.parse_args()
    with tempfile.TemporaryDirectory(prefix='higra-batches-') as room:
        folder = given.inputs or room
        os.makedirs(folder, exist_ok=True)
        measure(given, folder)


if __name__ == '__main__':
    main()
