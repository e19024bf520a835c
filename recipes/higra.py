"""Runs higra on a graph or a picture and gives its report as lists. Copy this file wherever Python finds it.

  import higra
  graph = higra.Graph(4, [(0, 1, 1), (1, 2, 5), (2, 3, 2)])
  higra.run('tree', graph).parents                      # [4, 4, 5, 5, 6, 6, 6]
  higra.run('cut', [[1, 1, 9], [1, 9, 9]], level=3).labels   # of a picture, a list of rows of greys

The edges of a graph, its areas and a picture may be arrays of numpy. Bytes go to the program as they are, and None goes with
make=SIDE. Every option of the program is a word: tile=64, workers=4, form='pgm', make=8, seed=1, kind='area', level=3. The
program is that of the environment variable HIGRA, else bin/higra of this repository, else higra where the shell finds it. Python's
standard library alone.
"""
import array
import collections
import os
import subprocess
import sys

BUILT = os.path.join(os.path.dirname(os.path.dirname(os.path.abspath(__file__))), 'bin', 'higra')

# An edge has two ends and a weight, and there is an area for each vertex, or None where each is 1.
Graph = collections.namedtuple('Graph', 'vertices edges areas', defaults=[None])

# The reports. Entry i of a list is that of vertex, edge or node i. Entry i of extinctions is that of label i + 1.
Tree = collections.namedtuple('Tree', 'leaves parents altitudes')
Saliency = collections.namedtuple('Saliency', 'values')
Attributes = collections.namedtuple('Attributes', 'areas volumes dynamics')
Minima = collections.namedtuple('Minima', 'count vertices edges')
Watershed = collections.namedtuple('Watershed', 'count labels cut forest weight')
Hierarchical = collections.namedtuple('Hierarchical', 'tree extinctions')
Labels = collections.namedtuple('Labels', 'count labels')
Energy = collections.namedtuple('Energy', 'count sum nodes energies labels')


class Failed(Exception):
    """The program ended with a status other than 0, and said a line of why."""

    def __init__(self, status, said):
        super().__init__(status, said)
        self.status, self.said = status, said

    def __str__(self):
        return self.said


class Usage(Failed):
    """The words ask for nothing."""


class Fault(Failed):
    """The input has a fault: its number, its kind, as 'Loop', its place in the bytes of the input, and its value."""

    def __init__(self, status, said):
        super().__init__(status, said)
        _, _, number, self.kind, _, place, _, value = said.split()
        self.number, self.place, self.value = int(number), int(place), int(value)


class ReadFailed(Failed):
    """The program couldn't read its input."""


class WriteFailed(Failed):
    """The program couldn't write its report."""


class OutOfMemory(Failed):
    """The program had no memory left."""


FAILURES = {2: Usage, 3: Fault, 4: ReadFailed, 5: WriteFailed, 6: OutOfMemory}


# The input.

def plain(values):
    """A list of Python's own numbers, of a list or an array."""
    return values.tolist() if hasattr(values, 'tolist') else list(values)


def graph_bytes(graph):
    edges = plain(graph.edges)
    head = f'graph {graph.vertices} {len(edges)}\n'
    if graph.areas is not None:
        head = f'graph2 {graph.vertices} {len(edges)}\n{" ".join(map(str, plain(graph.areas)))}\n'
    return (head + ''.join(f'{u} {v} {weight}\n' for u, v, weight in edges)).encode()


def picture_bytes(rows):
    rows = [plain(row) for row in rows]
    width = len(rows[0]) if rows else 0
    greys = [grey for row in rows for grey in row]
    if any(len(row) != width for row in rows) or not all(0 <= grey <= 65535 for grey in greys):
        raise ValueError('a picture has rows of one length, and greys from 0 to 65535')
    greatest = max(1, max(greys, default=1))
    samples = array.array('B' if greatest < 256 else 'H', greys)
    if sys.byteorder == 'little':
        samples.byteswap()
    return f'P5\n{width} {len(rows)}\n{greatest}\n'.encode() + samples.tobytes()


def input_bytes(given):
    if given is None:
        return b''
    if isinstance(given, (bytes, bytearray)):
        return bytes(given)
    return graph_bytes(given) if isinstance(given, Graph) else picture_bytes(given)


# The reports.

def column(lines, place):
    return [int(line.split(' ')[place]) for line in lines]


def marked(lines, word):
    return [line for line in lines if line.startswith(word + ' ')]


def read_tree(head, lines):
    """A tree, or a hierarchical watershed where extinction values follow."""
    nodes, leaves = map(int, head)
    tree = Tree(leaves, column(lines[:nodes], 1), column(lines[:nodes], 2))
    return tree if len(lines) == nodes else Hierarchical(tree, column(lines[nodes + 1:], 1))


def read_attributes(_, lines):
    return Attributes(column(lines, 1), column(lines, 2), column(lines, 3))


def read_minima(head, lines):
    return Minima(int(head[0]), column(marked(lines, 'v'), 2), column(marked(lines, 'e'), 2))


def read_watershed(head, lines):
    cut, forest = column(marked(lines, 'cut'), 1), column(marked(lines, 'forest'), 1)
    return Watershed(int(head[1]), column(marked(lines, 'v'), 2), cut, forest, int(head[4]))


def read_energy(head, lines):
    nodes = marked(lines, 'node')
    return Energy(int(head[1]), int(head[2]), column(nodes, 1), column(nodes, 2), column(marked(lines, 'v'), 2))


def read_summary(head, lines):
    """A dict of the ten words."""
    pairs = [line.split(' ') for line in [f'vertices {head[0]}', *lines]]
    return {word: int(number) for word, number in pairs}


READERS = {
    'tree': read_tree, 'mintree': read_tree, 'maxtree': read_tree, 'attributes': read_attributes, 'minima': read_minima,
    'watershed': read_watershed, 'energy': read_energy, 'vertices': read_summary,
    'saliency': lambda head, lines: Saliency(column(lines, 1)),
    'labels': lambda head, lines: Labels(int(head[1]), column(lines, 1)),
}


def read_picture(data):
    """The samples of a picture without comments, as the program writes it: a list of rows."""
    _, size, greatest, samples = data.split(b'\n', 3)
    width, height = map(int, size.split())
    values = array.array('B' if int(greatest) < 256 else 'H', samples)
    if sys.byteorder == 'little':
        values.byteswap()
    return [values[y * width:(y + 1) * width].tolist() for y in range(height)]


def read(report):
    """The lists of a report, from its bytes; the rows of labels where it is a picture."""
    if report.startswith(b'P5'):
        return read_picture(report)
    lines = report.decode().splitlines()
    if not lines:
        raise ValueError('there is no report')
    word, *head = lines[0].split(' ')
    return READERS[word](head, lines[1:])


# The run.

def program():
    return os.environ.get('HIGRA') or (BUILT if os.path.exists(BUILT) else 'higra')


def run(report, given=None, **options):
    """The report about a graph, a picture or bytes, as lists. Raises Fault, Usage and the other failures."""
    words = [report, *(f'--{name}={value}' for name, value in options.items())]
    ended = subprocess.run([program(), *words], input=input_bytes(given), capture_output=True, check=False)
    if ended.returncode != 0:
        said = ended.stderr.decode(errors='replace').strip()
        raise FAILURES.get(ended.returncode, Failed)(ended.returncode, said.splitlines()[-1] if said else 'nothing was said')
    return read(ended.stdout)
