#!/usr/bin/env python3
"""From a mesh to an edge list, and from labels to the colours of its faces.

  mesh.py edges model.obj > model.graph
  higra cut --level 3000 < model.graph > model.labels
  mesh.py colour model.obj model.labels > coloured.ply

The mesh is an OBJ or a PLY (text or binary). The vertices of the graph are its faces, in order. Two faces that share a side are
joined by an edge that weighs the angle between their normals, in hundredths of a degree: 0 where they lie flat, 9000 at the
edge of a box. The labels are the report of cut.
"""
import collections
import colorsys
import itertools
import math
import struct
import sys

import higra

# The letters by which struct knows the number types of PLY.
TYPES = {'char': 'b', 'int8': 'b', 'uchar': 'B', 'uint8': 'B', 'short': 'h', 'int16': 'h', 'ushort': 'H', 'uint16': 'H',
         'int': 'i', 'int32': 'i', 'uint': 'I', 'uint32': 'I', 'float': 'f', 'float32': 'f', 'double': 'd', 'float64': 'd'}


# The mesh: a list of points, and a list of faces, each a list of numbers of points.

def read_obj(data):
    points, faces = [], []
    for line in data.decode(errors='replace').splitlines():
        word, *rest = line.split() or ['']
        if word == 'v':
            points.append(tuple(map(float, rest[:3])))
        elif word == 'f':
            numbers = [int(corner.split('/')[0]) for corner in rest]
            faces.append([number - 1 if number > 0 else len(points) + number for number in numbers])
    return points, faces


def text_numbers(body):
    words = iter(body.split())
    return lambda kind: (float if kind in 'fd' else int)(next(words))


def binary_numbers(body, order):
    at = 0

    def number(kind):
        nonlocal at
        value, = struct.unpack_from(order + kind, body, at)
        at += struct.calcsize(order + kind)
        return value
    return number


def read_element(properties, number):
    """The values of a vertex or a face, by name of property. A list is told by the type of its length."""
    values = {}
    for *kinds, name in properties:
        if kinds[0] == 'list':
            values[name] = [number(TYPES[kinds[2]]) for _ in range(number(TYPES[kinds[1]]))]
        else:
            values[name] = number(TYPES[kinds[0]])
    return values


def elements_of(lines):
    """The elements that the head of a PLY names, in order: each has a name, a count and properties."""
    elements = []
    for line in lines:
        if line[:1] == ['element']:
            elements.append((line[1], int(line[2]), []))
        elif line[:1] == ['property']:
            elements[-1][2].append(line[1:])
    return elements


def read_ply(data):
    head, body = data.split(b'end_header', 1)
    lines = [line.split() for line in head.decode().splitlines()]
    form = next(line[1] for line in lines if line[:1] == ['format'])
    body = body[body.index(b'\n') + 1:]
    number = text_numbers(body) if form == 'ascii' else binary_numbers(body, '<' if form == 'binary_little_endian' else '>')
    kept = {name: [read_element(properties, number) for _ in range(count)] for name, count, properties in elements_of(lines)}
    points = [(it['x'], it['y'], it['z']) for it in kept['vertex']]
    return points, [it['vertex_indices' if 'vertex_indices' in it else 'vertex_index'] for it in kept['face']]


def read_mesh(path):
    with open(path, 'rb') as file:
        data = file.read()
    return read_ply(data) if data.startswith(b'ply') else read_obj(data)


# The edge list.

def sides_of(face):
    return zip(face, face[1:] + face[:1])


def normal_of(points, face):
    """The normal of a face with any number of corners, as long as twice its area."""
    x, y, z = 0.0, 0.0, 0.0
    for (ax, ay, az), (bx, by, bz) in sides_of([points[corner] for corner in face]):
        x, y, z = x + ay * bz - az * by, y + az * bx - ax * bz, z + ax * by - ay * bx
    return x, y, z


def angle(first, second, turned):
    """The angle between two normals in hundredths of a degree; 0 beside a face without area. A face may be turned over."""
    lengths = math.hypot(*first) * math.hypot(*second)
    if lengths == 0:
        return 0
    cosine = sum(map(lambda a, b: a * b, first, second)) / lengths
    return round(100 * math.degrees(math.acos(max(-1, min(1, -cosine if turned else cosine)))))


def graph_of(points, faces):
    users = collections.defaultdict(list)
    for number, face in enumerate(faces):
        for a, b in sides_of(face):
            users[min(a, b), max(a, b)].append((number, a < b))
    normals = [normal_of(points, face) for face in faces]
    edges = []
    for found in users.values():
        # Of two faces that are wound alike, each runs along their side in its own direction.
        for (u, way), (v, other) in itertools.pairwise(found):
            if u != v:
                edges.append((u, v, angle(normals[u], normals[v], way == other)))
    return higra.Graph(len(faces), edges)


# The colours.

def colour_of(label):
    """Colours around the wheel, of which those of neighbouring labels lie far apart."""
    return [round(255 * part) for part in colorsys.hsv_to_rgb(label * 0.618034 % 1, 0.6, 0.95)]


def coloured(points, faces, labels):
    if len(labels) != len(faces):
        sys.exit(f'mesh.py: {len(labels)} labels for {len(faces)} faces')
    lines = ['ply', 'format ascii 1.0', f'element vertex {len(points)}']
    lines += [f'property float {axis}' for axis in 'xyz']
    lines += [f'element face {len(faces)}', 'property list uchar int vertex_indices']
    lines += [f'property uchar {part}' for part in ('red', 'green', 'blue')] + ['end_header']
    lines += [' '.join(f'{part:.9g}' for part in point) for point in points]
    lines += [' '.join(map(str, [len(face), *face, *colour_of(label)])) for face, label in zip(faces, labels)]
    return ''.join(line + '\n' for line in lines)


def main():
    match sys.argv[1:]:
        case ['edges', mesh]:
            sys.stdout.buffer.write(higra.graph_bytes(graph_of(*read_mesh(mesh))))
        case ['colour', mesh, labels]:
            with open(labels, 'rb') as file:
                sys.stdout.write(coloured(*read_mesh(mesh), higra.read(file.read()).labels))
        case _:
            sys.exit(__doc__)


if __name__ == '__main__':
    main()
