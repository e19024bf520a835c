#!/usr/bin/env python3
"""From a CSV of named nodes to an edge list, and from a report back to names.

  names.py edges [--scale N] < roads.csv > roads.graph
  names.py back roads.graph < REPORT > report.csv

A line of the CSV is NAME,NAME,WEIGHT, and the first may be a heading. A weight times N (default 1) is rounded to a whole
number. The names stand in the edge list as comments, so that it is all that the way back needs: a vertex becomes its name, and
an edge the names of its ends. REPORT is any but a summary, in which nothing has a name.
"""
import argparse
import csv
import sys

# What the words of a line are, by the heading above it or by its own first word: n a node, e an edge, . what stays.
HEADINGS = {'tree': 'nn.', 'attributes': 'n...', 'saliency': 'e.', 'labels': 'n.', 'extinctions': '..',
            'minima': '', 'watershed': '', 'energy': ''}
MARKED = {'v': '.n.', 'e': '.e.', 'cut': '.e', 'forest': '.e', 'node': '.n.'}


def is_number(text):
    try:
        float(text)
    except ValueError:
        return False
    return True


def edge_list(names, edges):
    """The text of an edge list whose first lines are the names as comments."""
    for name in names:
        if '\n' in name or '\r' in name:
            sys.exit(f'names.py: a name has a line break: {name!r}')
    comments = ''.join(f'# {number} {name}\n' for number, name in enumerate(names))
    return f'{comments}graph {len(names)} {len(edges)}\n' + ''.join(f'{u} {v} {weight}\n' for u, v, weight in edges)


def edges_of(rows, scale):
    """The names, each once and in order, and the edges between their numbers."""
    numbers, edges = {}, []
    for place, row in enumerate(rows):
        if not row:
            continue
        if len(row) < 3 or (place > 0 and not is_number(row[2])):
            sys.exit(f'names.py: line {place + 1} is not NAME,NAME,WEIGHT')
        if not is_number(row[2]):
            continue
        u, v = (numbers.setdefault(name, len(numbers)) for name in row[:2])
        edges.append((u, v, round(float(row[2]) * scale)))
    return list(numbers), edges


def read_names(path):
    """The names of an edge list's comments, and the ends of its edges."""
    with open(path, encoding='utf-8') as file:
        lines = file.read().split('\n')
    start = next(place for place, line in enumerate(lines) if line.startswith('graph '))
    names = [line.split(' ', 2)[2] for line in lines[:start]]
    return names, [line.split(' ')[:2] for line in lines[start + 1:] if line]


def named(words, kinds, names, ends):
    """The words of a line with names for its nodes that are vertices, and for the ends of its edges."""
    row = []
    for word, kind in zip(words, kinds):
        numbers = ends[int(word)] if kind == 'e' else [word]
        row += [word] if kind == '.' else [names[int(it)] if int(it) < len(names) else it for it in numbers]
    return row


def back(report, names, ends):
    """The rows of a report with names; its headings stand as they are."""
    kinds = ''
    for line in report:
        words = line.split()
        if words[0] in HEADINGS:
            kinds = HEADINGS[words[0]]
            yield words
        else:
            yield named(words, MARKED.get(words[0], kinds), names, ends)


def main():
    asked = argparse.ArgumentParser(description=__doc__, formatter_class=argparse.RawDescriptionHelpFormatter)
    deeds = asked.add_subparsers(dest='deed', required=True)
    deeds.add_parser('edges').add_argument('--scale', type=float, default=1)
    deeds.add_parser('back').add_argument('graph')
    given = asked.parse_args()
    if given.deed == 'edges':
        sys.stdout.write(edge_list(*edges_of(csv.reader(sys.stdin), given.scale)))
    else:
        csv.writer(sys.stdout, lineterminator='\n').writerows(back(sys.stdin, *read_names(given.graph)))


if __name__ == '__main__':
    main()
