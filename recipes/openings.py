#!/usr/bin/env python3
"""Takes small bright parts out of a picture by its max tree, or small dark ones by its min tree.

  higra maxtree < photo.pgm | openings.py photo.pgm --area 500 > opened.pgm

Each pixel gets the level of the smallest part around it that has at least so many pixels: the area opening of the photo, or with
mintree its area closing. What was taken out is the difference: pamarith -difference photo.pgm opened.pgm.
"""
import argparse
import re
import sys

import higra

GAP = rb'(?:\s|#[^\r\n]*)+'
HEADER = re.compile(rb'P5' + rb''.join(GAP + rb'(\d+)' for _ in range(3)) + rb'\s')


def areas_of(tree):
    """How many pixels each node has. Its number is greater than those of its children."""
    areas = [1] * tree.leaves + [0] * (len(tree.parents) - tree.leaves)
    for node, parent in enumerate(tree.parents):
        if parent != node:
            areas[parent] += areas[node]
    return areas


def opened(tree, least):
    """The grey of each pixel: the level of the lowest node above it that has at least so many pixels, or else of its root."""
    areas, levels = areas_of(tree), list(tree.altitudes)
    for node in reversed(range(len(levels))):
        if areas[node] < least:
            levels[node] = levels[tree.parents[node]]
    return levels[:tree.leaves]


def main():
    asked = argparse.ArgumentParser(description=__doc__, formatter_class=argparse.RawDescriptionHelpFormatter)
    asked.add_argument('photo')
    asked.add_argument('--area', type=int, required=True)
    given = asked.parse_args()
    with open(given.photo, 'rb') as file:
        width, height, greatest = map(int, HEADER.match(file.read()).groups())
    greys = opened(higra.read(sys.stdin.buffer.read()), given.area)
    size = 1 if greatest < 256 else 2
    samples = b''.join(grey.to_bytes(size, 'big') for grey in greys)
    sys.stdout.buffer.write(f'P5\n{width} {height}\n{greatest}\n'.encode() + samples)


if __name__ == '__main__':
    main()
