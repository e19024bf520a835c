#!/usr/bin/env python3
"""From a photo to a picture that higra reads, and from labels back to the photo. Netpbm's programs read the photo.

  pictures.py grey photo.png > photo.pgm
  higra cut --kind area --level 500 --form pgm < photo.pgm > labels.pgm
  pictures.py over photo.png labels.pgm | pnmtopng > regions.png
  pictures.py colours < labels.pgm | pnmtopng > regions.png

The photo is a PNG, a JPEG or one of Netpbm's own. One of more than 1,048,576 pixels is made smaller, in both ways alike. over
gives each region the mean colour of its pixels, and colours one of twelve colours, so that no two regions side by side have the same.
"""
import collections
import heapq
import itertools
import re
import subprocess
import sys

import higra

LIMIT = 1048576
COLOURS = [bytes.fromhex(colour) for colour in (
    'c8553d', '7aaad6', 'e8e0c8', '3f7184', 'f2c14e', '9a6fb0', '70a45c', 'e79a8b', '8a5a44', 'b8d67a', 'f4a259', '6fc3b8')]


def piped(data, *command):
    return subprocess.run(command, input=data, stdout=subprocess.PIPE, check=True).stdout


def read_header(data):
    """The width, the height and the greatest value of a colour picture of Netpbm, and its samples."""
    *numbers, samples = re.match(rb'P6\s+(\d+)\s+(\d+)\s+(\d+)\s(.*)', data, re.DOTALL).groups()
    return *map(int, numbers), samples


def photo_of(path):
    """The photo as a colour picture of Netpbm, of at most as many pixels as higra takes."""
    with open(path, 'rb') as file:
        data = file.read()
    if data.startswith(b'\x89PNG'):
        data = piped(data, 'pngtopnm', '-quiet')
    elif data.startswith(b'\xff\xd8'):
        data = piped(data, 'jpegtopnm', '-quiet')
    data = piped(data, 'ppmtoppm', '-quiet')
    width, height, _, _ = read_header(data)
    return piped(data, 'pamscale', '-quiet', f'-pixels={LIMIT}') if width * height > LIMIT else data


def coloured(photo, labels):
    """The photo, in which each region has the mean colour of its pixels."""
    width, height, greatest, samples = read_header(photo)
    if len(labels) != width * height:
        sys.exit(f'pictures.py: {len(labels)} labels for {width * height} pixels')
    size = 1 if greatest < 256 else 2
    values = [int.from_bytes(samples[at:at + size], 'big') for at in range(0, len(samples), size)]
    means = means_by(labels, list(zip(values[0::3], values[1::3], values[2::3])))
    colours = {label: b''.join(value.to_bytes(size, 'big') for value in mean) for label, mean in means.items()}
    return f'P6\n{width} {height}\n{greatest}\n'.encode() + b''.join(map(colours.get, labels))


def means_by(labels, colours):
    members = collections.defaultdict(list)
    for label, colour in zip(labels, colours):
        members[label].append(colour)
    return {label: [round(sum(values) / len(values)) for values in zip(*found)] for label, found in members.items()}


def neighbours_of(rows):
    """For each label, the labels beside it."""
    beside = {label: set() for row in rows for label in row}
    across = (pair for row in rows for pair in zip(row, row[1:]))
    down = (pair for row, below in zip(rows, rows[1:]) for pair in zip(row, below))
    for one, other in itertools.chain(across, down):
        if one != other:
            beside[one].add(other)
            beside[other].add(one)
    return beside


def in_turn(beside):
    """The labels, each with at most five of its neighbours before it. That can be had, since regions lie in a plane: some
    region has at most five neighbours, and goes behind all others; so do one of the others, behind what is left then, and so on."""
    counts = {label: len(others) for label, others in beside.items()}
    waiting = [(count, label) for label, count in counts.items()]
    heapq.heapify(waiting)
    turn = []
    while waiting:
        count, label = heapq.heappop(waiting)
        if counts.get(label) != count:
            continue
        turn.append(label)
        del counts[label]
        for other in counts.keys() & beside[label]:
            counts[other] -= 1
            heapq.heappush(waiting, (counts[other], other))
    return reversed(turn)


def in_colours(rows):
    """The regions of rows of labels, each in the first colour, from its own place in the list on, that no neighbour has."""
    beside, chosen = neighbours_of(rows), {}
    for label in in_turn(beside):
        taken = {chosen.get(other) for other in beside[label]}
        places = ((label + step) % len(COLOURS) for step in range(len(COLOURS)))
        chosen[label] = next(place for place in places if place not in taken)
    samples = b''.join(COLOURS[chosen[label]] for row in rows for label in row)
    return f'P6\n{len(rows[0])} {len(rows)}\n255\n'.encode() + samples


def main():
    match sys.argv[1:]:
        case ['colours']:
            sys.stdout.buffer.write(in_colours(higra.read(sys.stdin.buffer.read())))
        case ['grey', path]:
            sys.stdout.buffer.write(piped(photo_of(path), 'ppmtopgm', '-quiet'))
        case ['over', path, labels]:
            with open(labels, 'rb') as file:
                rows = higra.read(file.read())
            sys.stdout.buffer.write(coloured(photo_of(path), [label for row in rows for label in row]))
        case _:
            sys.exit(__doc__)


if __name__ == '__main__':
    main()
