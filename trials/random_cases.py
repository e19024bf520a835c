#!/usr/bin/env python3
"""Runs higra on random inputs and compares status, output and fault line with a plain, slow program.

  random_cases.py [--batch] [--program CMD] [--cases N] [--from SEED] [--jobs N]

Graphs and pictures of all kinds: ties, parallel edges, isolated vertices, several components, hubs, long paths, equal
weights, areas, comments everywhere, and every fault of the grammar at a random place; every report, random tile sizes
and numbers of workers. Each case prints its seed and its words, and its input where it differs. The last line is
`N passed, M failed`.

--batch    batches of such edge lists, for higra_batch
--program  the program that is tried (default: bin/higra or bin/higra_batch of this repository)
--from     the first seed; with --cases 1 it is tried alone
--jobs     how many cases run at a time (default: one on each processor)
"""
import argparse
import itertools
import os
import random
import shlex
import subprocess
import sys
from concurrent.futures import ProcessPoolExecutor

import plain

TOP = os.path.dirname(os.path.dirname(os.path.abspath(__file__)))
BLANKS = [' ', '\n', '\t', '\r\n', '  ', ' # a note\n', '#\r', ' #5 6 7\n']
CUT = b'\x0c'


# Graphs.

def some_weight(chance):
    """A way to draw weights: all equal, few values, small ones, or any."""
    top = chance.choice([0, 1, 3, 10, 4294967295])
    least = chance.choice([0, 0, 5]) if top > 5 else 0
    return lambda: chance.randint(least, top)


def some_edges(chance, n):
    """Pairs of ends of one of the kinds of graphs."""
    kind = chance.choice(['any', 'path', 'star', 'hubs', 'parallel', 'islands', 'grid', 'none'])
    if n == 1 or kind == 'none':
        return []
    if kind == 'path':
        return [(x, x + 1) for x in range(n - 1)]
    if kind == 'star':
        return [(0, x) for x in range(1, n)]
    if kind == 'hubs':
        return [(x % 2, x) for x in range(2, n)] + [(0, 1)] * chance.randint(0, 3)
    if kind == 'parallel':
        return [(x, x + 1) for x in range(n - 1) for _ in range(chance.randint(1, 3))]
    if kind == 'islands':
        return [(x, x + 1) for x in range(n - 1) if chance.random() < 0.6]
    if kind == 'grid':
        return [(x, y) for x in range(n) for y in (x + 1, x + 3) if y < n]
    pairs = (chance.sample(range(n), 2) for _ in range(chance.randint(0, 2 * n)))
    return [tuple(pair) for pair in pairs]


def edge_list(chance, is_small):
    """The tokens of an edge list."""
    n = chance.choice([1, 2, 3, 4, 5, 6, 7, 8, 9, 12] + [20, 40] * (not is_small))
    edges = [pair if chance.random() < 0.7 else pair[::-1] for pair in some_edges(chance, n)]
    chance.shuffle(edges)
    weight = some_weight(chance)
    has_areas = chance.random() < 0.3
    tokens = ['graph2' if has_areas else 'graph', n, len(edges)]
    if has_areas:
        tokens += [chance.choice([1, 2, 7, 4096]) for _ in range(n)]
    for u, v in edges:
        tokens += [u, v, weight()]
    return [str(token) for token in tokens]


def misspelled(chance, tokens):
    """The tokens with one of them missing, put in or of another value."""
    at = chance.randrange(len(tokens) + 1)
    wrong = chance.choice(['x', '-1', '12345678901', '4294967296', '4194305', '1048577', '4097', '0', tokens[1], *tokens[-3:]])
    return tokens[:at] + chance.choice([[], [wrong]]) + tokens[at + chance.choice([0, 1, 1]):]


def spelled(chance, tokens):
    """The tokens with white space and comments between, and perhaps before and after them."""
    if not tokens:
        return chance.choice(BLANKS).encode()
    plain_text = chance.random() < 0.5
    text = '' if plain_text or chance.random() < 0.6 else chance.choice(BLANKS)
    for k, token in enumerate(tokens):
        padded = token.zfill(chance.randint(1, 10)) if token.isdigit() and chance.random() < 0.05 else token
        text += padded + (chance.choice(' \n') if plain_text else chance.choice(BLANKS))
    return (text[:-1] if text[-1] in ' \n' and chance.random() < 0.3 else text).encode()


# Pictures.

def picture(chance, is_small):
    sizes = [(1, 1), (2, 2), (3, 1), (1, 4), (3, 3), (4, 3), (5, 2), (4, 4)]
    width, height = chance.choice(sizes + [(30, 1), (1, 30), (6, 5), (5, 7)] * (not is_small))
    greatest = chance.choice([1, 9, 255, 256, 65535])
    few = chance.choice([1, 2, greatest])
    samples = [chance.randint(0, min(few, greatest)) for _ in range(width * height)]
    blank = [chance.choice(BLANKS) if chance.random() < 0.3 else ' ' for _ in range(3)]
    if blank[0][0] not in ' \n\t\r#':
        blank[0] = ' '
    size = 1 if greatest < 256 else 2
    head = f'P5{blank[0]}{width}{blank[1]}{height}{blank[2]}{greatest}{chance.choice(" ")}'.encode()
    return head + b''.join(sample.to_bytes(size, 'big') for sample in samples)


# Faults.

def damaged(chance, data):
    """The input with a fault, or with luck without one: cut, or with bytes that are put in, left out or changed."""
    data = bytearray(data)
    for _ in range(chance.choice([1, 1, 1, 2])):
        at = chance.randrange(len(data) + 1)
        deed = chance.choice(['cut', 'put', 'drop', 'change', 'word'])
        if deed == 'cut':
            del data[at:]
        elif deed == 'put':
            data[at:at] = chance.choice([b'x', b'7', b' ', b'#', b'\x0b', b'\x0c', b'\x00', b'99999', b'-'])
        elif deed == 'word':
            data[at:at] = chance.choice([b' 0 ', b' 4294967296 ', b' 12345678901 ', b' 1048577 ', b' 4097 ', b' graph ', b' 5 5 5 '])
        elif at < len(data):
            data[at:at + 1] = b'' if deed == 'drop' else bytes([chance.choice(b'0123456789 x#\n')])
        if not data:
            break
    return bytes(data)


# Cases.

def some_words(chance):
    report = chance.choice(plain.REPORTS)
    words = [report]
    if chance.random() < 0.8:
        words += ['--tile', str(chance.choice([1, 1, 2, 3, 4, 64]))]
    if chance.random() < 0.8:
        words += ['--workers', str(chance.choice([1, 2, 3, 4, 64]))]
    if report in ('hierarchical', 'cut') and chance.random() < 0.8:
        words += ['--kind', chance.choice(plain.KINDS + ['altitude'] * (report == 'cut'))]
    if report in ('cut', 'energy') and chance.random() < 0.8:
        words += ['--level', str(chance.choice([0, 1, 2, 3, 5, 20, 1000, 18446744073709551615]))]
    if report in plain.DRAWN and chance.random() < 0.4:
        words += ['--form', 'pgm']
    return words


def too_many_tiles(chance):
    """An edge list or a picture with more vertices than there may be tiles."""
    n = chance.choice([65_537, 100_000, 1_048_576])
    return chance.choice([b'graph %d 0' % n, b'P5 %d 1 1 ' % n + bytes(n), b'P5 1 %d 1 ' % n + bytes(n)])


def single(chance):
    """Words and an input of one graph or picture."""
    words = some_words(chance)
    if chance.random() < 0.06:
        seed = chance.choice([[], ['--seed', '0'], ['--seed', '4294967295'], ['--seed', str(chance.getrandbits(32))]])
        return words + ['--make', str(chance.randint(1, 4))] + seed, b''
    if chance.random() < 0.005:
        return [words[0], '--tile', '1'], too_many_tiles(chance)
    wants_picture = words[0] in ('mintree', 'maxtree') or 'pgm' in words
    is_picture = chance.random() < (0.9 if wants_picture else 0.3)
    return words, some_input(chance, is_picture, words[0] == 'energy')


def vertices(data):
    """How many vertices an input has; 0 where it has a fault."""
    try:
        return plain.graph_of(data).n
    except plain.Fault:
        return 0


def some_input(chance, is_picture, is_small):
    """An edge list or a picture, in three of ten cases with a fault, that the plain program can do."""
    data = any_input(chance, is_picture, is_small)
    while vertices(data) > (16 if is_small else 50):
        data = any_input(chance, is_picture, is_small)
    return data


def any_input(chance, is_picture, is_small):
    if is_picture:
        data = picture(chance, is_small)
    else:
        tokens = edge_list(chance, is_small)
        data = spelled(chance, misspelled(chance, tokens) if chance.random() < 0.15 else tokens)
    return damaged(chance, data) if chance.random() < 0.15 + 0.15 * is_picture else data


def batch(chance):
    """Words and an input of several edge lists."""
    words = some_words(chance)
    if 'pgm' in words:
        words = words[:words.index('--form')]
    if chance.random() < 0.01:
        return words, chance.choice([CUT * 4095, CUT * 4096, CUT.join([b'graph 1048576 0'] * 5)])
    count = chance.choice([1, 1, 2, 3, 5, 9])
    pieces = (some_input(chance, chance.random() < 0.05, words[0] == 'energy') for _ in range(count))
    return words, CUT.join(b'' if chance.random() < 0.03 else piece for piece in pieces)


def try_case(program, seed, is_batch):
    chance = random.Random(seed)
    words, data = batch(chance) if is_batch else single(chance)
    want = plain.batch_answer(words, data) if is_batch else plain.answer(words, data)
    ran = subprocess.run(program + words, input=data, capture_output=True)
    got = ran.returncode, ran.stdout, ran.stderr
    told = f'seed {seed}: {" ".join(words)}, {len(data)} bytes, status {want[0]}'
    return got == want, told if got == want else f'{told}: DIFFERS\n  input {data!r}\n  want {want!r}\n  got {got!r}'


def main():
    words = argparse.ArgumentParser(description=__doc__, formatter_class=argparse.RawDescriptionHelpFormatter)
    words.add_argument('--batch', action='store_true')
    words.add_argument('--program')
    words.add_argument('--cases', type=int, default=10_000)
    words.add_argument('--from', type=int, default=1, dest='first')
    words.add_argument('--jobs', type=int)
    given = words.parse_args()
    program = shlex.split(given.program or os.path.join(TOP, 'bin', 'higra_batch' if given.batch else 'higra'))
    failed = 0
    seeds = range(given.first, given.first + given.cases)
    with ProcessPoolExecutor(given.jobs) as pool:
        tries = pool.map(try_case, itertools.repeat(program), seeds, itertools.repeat(given.batch), chunksize=16)
        for is_same, told in tries:
            failed += not is_same
            print(told, flush=True)
    print(f'{len(seeds) - failed} passed, {failed} failed')
    sys.exit(1 if failed else 0)


if __name__ == '__main__':
    main()
