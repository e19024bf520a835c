#!/usr/bin/env python3
"""Writes the inputs of the measurements: edge lists and pictures of the kinds that differ in how a tree is made of them.

  inputs.py FOLDER [--largest]

Standard library alone, the same bytes at every run. With --largest also the largest edge list, the largest star and the
largest pictures of one row, of one column and square, 130 MB.
"""
import argparse
import os
import random


def write_list(folder, name, vertices, edges):
    with open(os.path.join(folder, name + '.graph'), 'w') as file:
        file.write(f'graph {vertices} {len(edges)}\n')
        file.writelines(f'{u} {v} {w}\n' for u, v, w in edges)


def write_picture(folder, name, width, greatest, samples):
    size = 2 if greatest > 255 else 1
    with open(os.path.join(folder, name + '.pgm'), 'wb') as file:
        file.write(f'P5\n{width} {len(samples) // width}\n{greatest}\n'.encode())
        file.write(b''.join(sample.to_bytes(size, 'big') for sample in samples))


def path(n, weight):
    return [(i, i + 1, weight(i)) for i in range(n - 1)]


def star(n, weights):
    return [(0, i + 1, weights[i]) for i in range(n - 1)]


def hubs(n, chance):
    """Two hubs with a half of the leaves each; the leaves of one are joined with those of the other."""
    half = n // 2
    across = list(range(1, half))
    chance.shuffle(across)
    edges = [(0, i) for i in range(1, half)] + [(half, half + i) for i in range(1, half)]
    edges += [(i + 1, half + leaf) for i, leaf in enumerate(across)] + [(0, half)]
    weights = list(range(len(edges)))
    chance.shuffle(weights)
    return [(u, v, w) for (u, v), w in zip(edges, weights)]


def sparse(n, m, chance):
    """A random tree over shuffled vertices, so that all are joined, and random edges up to m; random weights."""
    names = list(range(n))
    chance.shuffle(names)
    edges = []
    for i in range(1, n):
        edges.append((names[i], names[chance.randrange(i)], chance.getrandbits(32)))
    while len(edges) < m:
        u, v = chance.randrange(n), chance.randrange(n)
        if u != v:
            edges.append((u, v, chance.getrandbits(32)))
    return edges


def hills(side, chance):
    """A smooth picture: a sum of hills, with a little noise."""
    hill = [(chance.randrange(side), chance.randrange(side), chance.randrange(side // 16, side // 4)) for _ in range(24)]
    rows = [[abs(y - b) for y in range(side)] for _, b, _ in hill]
    samples = []
    for y in range(side):
        heights = [(a, max(0, r - rows[k][y])) for k, (a, _, r) in enumerate(hill)]
        heights = [(a, h) for a, h in heights if h]
        for x in range(side):
            height = sum(max(0, h - abs(x - a)) for a, h in heights)
            samples.append(min(255, height * 512 // side + chance.randrange(3)))
    return samples


def write(folder):
    chance = random.Random(7)
    n = 100_000
    mixed = list(range(1, n))
    chance.shuffle(mixed)
    write_list(folder, 'path', n, path(n, lambda i: i + 1))
    write_list(folder, 'falling_path', n, path(n, lambda i: n - i))
    write_list(folder, 'star', n, star(n, range(1, n)))
    write_list(folder, 'mixed_star', n, star(n, mixed))
    write_list(folder, 'hubs', 20_000, hubs(20_000, chance))
    write_list(folder, 'parallel', 10_000, [(i, i + 1, chance.randrange(1000)) for _ in range(40) for i in range(9999)])
    write_list(folder, 'sparse', 200_000, sparse(200_000, 400_000, chance))
    write_picture(folder, 'hills', 1024, 255, hills(1024, chance))
    write_picture(folder, 'flat', 1024, 255, [100] * 1024 * 1024)
    write_picture(folder, 'ramp', 1024, 65535, [x * x // 16 for x in range(1024)] * 1024)


def write_largest(folder):
    n = 1_048_576
    write_list(folder, 'largest_star', n, star(n, range(1, n)))
    write_list(folder, 'largest', n, sparse(n, 4_194_304, random.Random(11)))
    samples = random.Random(13).choices(range(65_536), k=n)
    for name, width in ('row', n), ('column', 1), ('square', 1024):
        write_picture(folder, 'largest_' + name, width, 65_535, samples)


def main():
    words = argparse.ArgumentParser(description=__doc__, formatter_class=argparse.RawDescriptionHelpFormatter)
    words.add_argument('folder')
    words.add_argument('--largest', action='store_true')
    given = words.parse_args()
    os.makedirs(given.folder, exist_ok=True)
    write(given.folder)
    if given.largest:
        write_largest(given.folder)


main()
