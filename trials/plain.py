"""A plain, slow program written straight from the definitions of docs/rules.md, as a second opinion on higra.

answer(words, bytes) is what a run must do: its status, the bytes on standard output and those on standard error;
batch_answer is the same of a batch. They are for inputs of a few dozen vertices: they spread over edges to find who is
joined, look at every vertex for every edge, and list all cuts of a tree to find the least. Standard library alone.
"""
import functools
import itertools

WHITE = b' \t\n\r'
REPORTS = ['tree', 'zones', 'saliency', 'attributes', 'minima', 'watershed', 'hierarchical', 'cut', 'summary', 'mintree', 'maxtree', 'energy']
DRAWN = ['watershed', 'cut', 'energy']
KINDS = ['area', 'volume', 'dynamics']
NAMES = {1: 'UnknownForm', 2: 'BadNumber', 3: 'TooLarge', 4: 'Truncated', 5: 'Trailing', 6: 'OutOfRange', 7: 'Loop',
         8: 'NoVertex', 9: 'SampleAboveMax', 11: 'NotAPicture', 12: 'TooManyTiles', 14: 'TooManyLabels',
         15: 'TooManyJobs', 16: 'TooManyVertices'}


class Fault(Exception):
    """Why an input is refused: the number of the fault, its place and its value."""

    def __init__(self, number, at, value=0):
        super().__init__(number, at, value)
        self.number, self.at, self.value = number, at, value

    def line(self):
        return f'higra: input {self.number} {NAMES[self.number]} at {self.at} value {self.value}\n'


class Usage(Exception):
    """The words ask for nothing."""


# The input.

class Graph:
    def __init__(self, n, areas, edges, picture=None):
        self.n, self.areas, self.edges, self.picture = n, areas, edges, picture


class Picture:
    def __init__(self, width, height, samples):
        self.width, self.height, self.samples = width, height, samples


def is_picture(data):
    return data[:2] == b'P5' and (len(data) == 2 or data[2] in WHITE + b'#')


def token_at(data, at, stops):
    """The first token from a place on: its place and its bytes; none at the end. Comments are passed over."""
    while at < len(data):
        if data[at] in WHITE:
            at += 1
        elif data[at] == ord('#'):
            while at < len(data) and data[at] not in b'\n\r':
                at += 1
        else:
            end = at
            while end < len(data) and data[end] not in stops:
                end += 1
            return at, data[at:end]
    return len(data), None


class Tokens:
    def __init__(self, data, at):
        self.data, self.at = data, at

    def next(self, stops=WHITE + b'#'):
        at, token = token_at(self.data, self.at, stops)
        self.at = at + len(token or b'')
        return at, token

    def number(self, stops=WHITE + b'#'):
        at, token = self.next(stops)
        if token is None:
            raise Fault(4, at)
        if not (1 <= len(token) <= 10 and all(byte in b'0123456789' for byte in token)):
            raise Fault(2, at)
        return at, int(token)


def read_edge_list(data):
    tokens = Tokens(data, 0)
    at, form = tokens.next()
    if form not in (b'graph', b'graph2'):
        raise Fault(1, at)
    at, n = tokens.number()
    if n == 0:
        raise Fault(8, at)
    if n > 1048576:
        raise Fault(3, at, n)
    at, m = tokens.number()
    if m > 4194304:
        raise Fault(3, at, m)
    areas = [1] * n
    if form == b'graph2':
        for x in range(n):
            areas[x] = read_area(tokens)
    edges = [read_edge(tokens, n) for _ in range(m)]
    at, rest = tokens.next()
    if rest is not None:
        raise Fault(5, at)
    return Graph(n, areas, edges)


def read_area(tokens):
    at, area = tokens.number()
    if area == 0:
        raise Fault(2, at)
    if area > 4096:
        raise Fault(3, at, area)
    return area


def read_edge(tokens, n):
    at, u = tokens.number()
    if u >= n:
        raise Fault(6, at, u)
    at, v = tokens.number()
    if v >= n:
        raise Fault(6, at, v)
    if v == u:
        raise Fault(7, at, v)
    at, w = tokens.number()
    if w > 4294967295:
        raise Fault(3, at, w)
    return u, v, w


def read_picture(data):
    tokens = Tokens(data, 2)
    at, width = tokens.number()
    if width == 0:
        raise Fault(8, at)
    if width > 1048576:
        raise Fault(3, at, width)
    at, height = tokens.number()
    if height == 0:
        raise Fault(8, at)
    if width * height > 1048576:
        raise Fault(3, at, width * height)
    at, greatest = tokens.number(WHITE)
    if greatest == 0:
        raise Fault(2, at)
    if greatest > 65535:
        raise Fault(3, at, greatest)
    if tokens.at == len(data):
        raise Fault(4, len(data))
    return Picture(width, height, read_samples(data, tokens.at + 1, width * height, greatest))


def read_samples(data, at, count, greatest):
    size = 1 if greatest < 256 else 2
    samples = []
    for _ in range(count):
        if at + size > len(data):
            raise Fault(4, len(data))
        sample = int.from_bytes(data[at:at + size], 'big')
        if sample > greatest:
            raise Fault(9, at, sample)
        samples.append(sample)
        at += size
    if at < len(data):
        raise Fault(5, at)
    return samples


def made_picture(side, seed):
    x, samples = seed, []
    for _ in range(side * side):
        x = (1664525 * x + 1013904223) % 2 ** 32
        samples.append(x // 2 ** 24)
    return Picture(side, side, samples)


def picture_graph(picture):
    width, height, samples = picture.width, picture.height, picture.samples
    edges = []
    for p in range(width * height):
        if p % width + 1 < width:
            edges.append((p, p + 1, abs(samples[p] - samples[p + 1])))
        if p // width + 1 < height:
            edges.append((p, p + width, abs(samples[p] - samples[p + width])))
    return Graph(width * height, [1] * (width * height), edges, picture)


# Who is joined, and the tree.

def component(edges, x):
    """The vertices to which a walk through the edges leads from x."""
    found, old = {x}, None
    while old != found:
        old = set(found)
        for u, v in edges:
            if u in found or v in found:
                found |= {u, v}
    return found


def ends(graph, numbers):
    return [graph.edges[e][:2] for e in numbers]


def ranked(graph):
    """The numbers of the edges in order of rank: by weight, then by number."""
    return sorted(range(len(graph.edges)), key=lambda e: (graph.edges[e][2], e))


class Tree:
    def __init__(self, leaves, parents, altitudes, makers):
        self.leaves, self.parents, self.altitudes, self.makers = leaves, parents, altitudes, makers

    def path(self, i):
        path = [i]
        while self.parents[path[-1]] != path[-1]:
            path.append(self.parents[path[-1]])
        return path

    @functools.cached_property
    def vertices(self):
        """For each node the leaves whose path has it."""
        below = [[] for _ in self.parents]
        for x in range(self.leaves):
            for i in self.path(x):
                below[i].append(x)
        return below

    def children(self, i):
        return [j for j, parent in enumerate(self.parents) if parent == i and j != i]


def tree_of(n, listed):
    """The binary partition tree of a list of edges in order of rank: each has two ends, an altitude and a number."""
    fronts = [[edge[:2] for edge in listed[:k]] for k in range(len(listed) + 1)]
    joining = [k for k, edge in enumerate(listed) if edge[1] not in component(fronts[k], edge[0])]
    touched = {k: component(fronts[k], listed[k][0]) | component(fronts[k], listed[k][1]) for k in joining}

    def first_on_chain(x, after, otherwise):
        return next((n + i for i, k in enumerate(joining) if k > after and x in touched[k]), otherwise)
    parents = [first_on_chain(x, -1, x) for x in range(n)]
    parents += [first_on_chain(listed[k][0], k, n + i) for i, k in enumerate(joining)]
    altitudes = [0] * n + [listed[k][2] for k in joining]
    return Tree(n, parents, altitudes, [listed[k][3] for k in joining])


def graph_tree(graph):
    return tree_of(graph.n, [graph.edges[e] + (e,) for e in ranked(graph)])


def zones_of(tree):
    def is_kept(i):
        return i < tree.leaves or tree.parents[i] == i or tree.altitudes[tree.parents[i]] != tree.altitudes[i]
    kept = [i for i in range(len(tree.parents)) if is_kept(i)]
    parents = [next((j for j in tree.path(i)[1:] if is_kept(j)), i) for i in kept]
    return Tree(tree.leaves, [kept.index(p) for p in parents], [tree.altitudes[i] for i in kept], [])


def saliency(graph, e):
    """The least weight up to which the edges join the ends: some weight of an edge, or 0 where that is enough."""
    u, v, own = graph.edges[e]
    levels = sorted({0} | {w for _, _, w in graph.edges if w <= own})
    return next(k for k in levels if v in component([edge[:2] for edge in graph.edges if edge[2] <= k], u))


# Labels.

def labelled(n, together):
    """Classes of the vertices labelled 1, 2, .. by least vertex."""
    heads = [next(y for y in range(x + 1) if y == x or together(x, y)) for x in range(n)]
    firsts = sorted(set(heads))
    return [firsts.index(head) + 1 for head in heads], len(firsts)


def regions(tree, level):
    paths = [tree.path(x) for x in range(tree.leaves)]
    return labelled(tree.leaves, lambda x, y: any(tree.altitudes[i] <= level for i in paths[x] if i in paths[y]))


# Minima and watersheds.

class Minima:
    def __init__(self, graph):
        def at(x):
            return [w for u, v, w in graph.edges if x in (u, v)]
        levels = {w: [edge[:2] for edge in graph.edges if edge[2] == w] for _, _, w in graph.edges}

        def is_minimum(e):
            u, _, w = graph.edges[e]
            return all(weight >= w for y in component(levels[w], u) for weight in at(y))
        self.edge_set = [e for e in range(len(graph.edges)) if is_minimum(e)]
        classes = {}
        for e in self.edge_set:
            u, v, w = graph.edges[e]
            for x in (u, v):
                classes[x] = component(levels[w], x)
        for x in range(graph.n):
            if not at(x):
                classes[x] = {x}
        heads = sorted({min(members) for members in classes.values()})
        self.count = len(heads)
        self.vertices = [heads.index(min(classes[x])) + 1 if x in classes else 0 for x in range(graph.n)]
        self.edges = [self.vertices[graph.edges[e][0]] if e in self.edge_set else 0 for e in range(len(graph.edges))]


class Watershed:
    def __init__(self, graph, minima):
        order = ranked(graph)
        self.forest = []
        for k, e in enumerate(order):
            u, v, _ = graph.edges[e]
            below = ends(graph, order[:k])

            def reaches(x):
                return any(minima.vertices[y] for y in component(below, x))
            if v not in component(below, u) and e not in minima.edge_set and not (reaches(u) and reaches(v)):
                self.forest.append(e)
        self.forest.sort()
        trees = ends(graph, self.forest + minima.edge_set)
        found = [{minima.vertices[y] for y in component(trees, x)} - {0} for x in range(graph.n)]
        self.labels = [min(labels, default=0) for labels in found]
        self.cut = [e for e, (u, v, _) in enumerate(graph.edges) if self.labels[u] != self.labels[v]]
        self.weight = sum(graph.edges[e][2] for e in self.forest)


# Attributes and the hierarchical watershed.

def floor(graph, x):
    return min((w for u, v, w in graph.edges if x in (u, v)), default=0)


def attribute(graph, tree, kind, i):
    over = tree.altitudes[tree.parents[i]]
    vertices = tree.vertices[i]
    if kind == 'area':
        return sum(graph.areas[x] for x in vertices)
    if kind == 'volume':
        return sum(graph.areas[x] * (over - floor(graph, x)) for x in vertices)
    return over - min(floor(graph, x) for x in vertices)


class Hierarchy:
    def __init__(self, graph, kind):
        tree, minima = graph_tree(graph), Minima(graph)
        nodes = range(len(tree.parents))
        value = [attribute(graph, tree, kind, i) for i in nodes]
        basins = {label: {x for x in range(graph.n) if minima.vertices[x] == label} for label in range(1, minima.count + 1)}
        held = [[label for label, basin in basins.items() if basin <= set(tree.vertices[i])] for i in nodes]
        survivor, deaths, persistence = [0] * len(nodes), {}, [0] * (len(nodes) - graph.n)
        for i in nodes:
            holding = [j for j in tree.children(i) if held[j]]
            if len(holding) == 2:
                a, b = holding
                dying = a if (value[a], -survivor[a]) < (value[b], -survivor[b]) else b
                deaths.setdefault(survivor[dying], value[dying])
                survivor[i] = survivor[a + b - dying]
                persistence[i - graph.n] = min(value[a], value[b])
            elif holding:
                survivor[i] = survivor[holding[0]]
            elif held[i]:
                survivor[i] = held[i][0]
        roots = {survivor[i]: value[i] for i in nodes if tree.parents[i] == i}
        self.extinctions = [deaths.get(label, roots.get(label)) for label in basins]
        order = sorted(range(len(persistence)), key=lambda i: (persistence[i], i))
        self.tree = tree_of(graph.n, [graph.edges[tree.makers[i]][:2] + (persistence[i], tree.makers[i]) for i in order])


# Component trees.

def components_report(picture, side):
    graph = picture_graph(picture)
    value = picture.samples
    nodes = {}
    for t in set(value):
        def is_in(x):
            return value[x] <= t if side == 'min' else value[x] >= t
        inside = [(u, v) for u, v, _ in graph.edges if is_in(u) and is_in(v)]
        for x in filter(is_in, range(graph.n)):
            members = frozenset(component(inside, x))
            values = [value[y] for y in members]
            nodes[members] = max(values) if side == 'min' else min(values)
    order = sorted(nodes, key=lambda it: (nodes[it] if side == 'min' else -nodes[it], min(it)))
    lines = []
    for x in range(graph.n):
        own = next(k for k, it in enumerate(order) if nodes[it] == value[x] and x in it)
        lines.append(f'{x} {graph.n + own} {value[x]}\n')
    for k, it in enumerate(order):
        above = next((j for j in range(k + 1, len(order)) if order[j] >= it), k)
        lines.append(f'{graph.n + k} {graph.n + above} {nodes[it]}\n')
    return f'{side}tree {len(lines)} {graph.n}\n' + ''.join(lines)


# Cuts of least energy.

def cuts_below(tree, i):
    """Each cut of the leaves below node i."""
    found = [[i]]
    children = tree.children(i)
    if children:
        found += [sum(parts, []) for parts in itertools.product(*(cuts_below(tree, j) for j in children))]
    return found


class EnergyCut:
    def __init__(self, graph, penalty):
        tree = graph_tree(graph)
        self.energy = [penalty + attribute(graph, tree, 'area', i) * tree.altitudes[i] for i in range(len(tree.parents))]
        roots = [i for i in range(len(tree.parents)) if tree.parents[i] == i]
        cuts = [sum(parts, []) for parts in itertools.product(*(cuts_below(tree, i) for i in roots))]
        self.sum = min(sum(self.energy[i] for i in cut) for cut in cuts)
        least = [cut for cut in cuts if sum(self.energy[i] for i in cut) == self.sum]
        self.nodes = next(sorted(cut) for cut in least
                          if all(any(j in cut for j in tree.path(i)) for other in least for i in other))
        above = [next(i for i in tree.path(x) if i in self.nodes) for x in range(graph.n)]
        self.labels, self.count = labelled(graph.n, lambda x, y: above[x] == above[y])


# The reports.

def numbered(values):
    return ''.join(f'{i} {value}\n' for i, value in enumerate(values))


def with_word(word, values):
    return ''.join(f'{word} {value}\n' for value in values)


def tree_report(tree):
    lines = numbered(f'{p} {a}' for p, a in zip(tree.parents, tree.altitudes))
    return f'tree {len(tree.parents)} {tree.leaves}\n{lines}'


def labels_report(labels, count):
    return f'labels {len(labels)} {count}\n' + numbered(labels)


def attributes_report(graph):
    tree = graph_tree(graph)
    lines = (' '.join(str(attribute(graph, tree, kind, i)) for kind in KINDS) for i in range(len(tree.parents)))
    return f'attributes {len(tree.parents)}\n' + numbered(lines)


def minima_report(graph):
    minima = Minima(graph)
    vertices = with_word('v', (f'{x} {label}' for x, label in enumerate(minima.vertices)))
    edges = with_word('e', (f'{e} {label}' for e, label in enumerate(minima.edges)))
    return f'minima {minima.count} {graph.n} {len(graph.edges)}\n{vertices}{edges}'


def watershed_report(graph):
    minima = Minima(graph)
    shed = Watershed(graph, minima)
    head = f'watershed {graph.n} {minima.count} {len(shed.cut)} {len(shed.forest)} {shed.weight}\n'
    vertices = with_word('v', (f'{x} {label}' for x, label in enumerate(shed.labels)))
    return head + vertices + with_word('cut', shed.cut) + with_word('forest', shed.forest)


def hierarchical_report(graph, kind):
    hierarchy = Hierarchy(graph, kind)
    values = ''.join(f'{below + 1} {value}\n' for below, value in enumerate(hierarchy.extinctions))
    return tree_report(hierarchy.tree) + f'extinctions {len(hierarchy.extinctions)}\n{values}'


def energy_report(graph, penalty):
    cut = EnergyCut(graph, penalty)
    nodes = with_word('node', (f'{i} {cut.energy[i]}' for i in cut.nodes))
    vertices = with_word('v', (f'{x} {label}' for x, label in enumerate(cut.labels)))
    return f'energy {graph.n} {cut.count} {cut.sum}\n{nodes}{vertices}'


def summary_report(graph):
    tree, minima = graph_tree(graph), Minima(graph)
    shed = Watershed(graph, minima)
    lines = [('vertices', graph.n), ('edges', len(graph.edges)), ('nodes', len(tree.parents)),
             ('zones', len(zones_of(tree).parents)), ('root', max(tree.altitudes)),
             ('saliency', sum(saliency(graph, e) for e in range(len(graph.edges)))), ('minima', minima.count),
             ('forest', len(shed.forest)), ('weight', shed.weight), ('cut', len(shed.cut))]
    return ''.join(f'{word} {number}\n' for word, number in lines)


def cut_tree(graph, kind):
    return graph_tree(graph) if kind == 'altitude' else Hierarchy(graph, kind).tree


def labels_of(graph, asked):
    """The labels of a report that can be drawn, and how many there are."""
    if asked.report == 'watershed':
        minima = Minima(graph)
        return Watershed(graph, minima).labels, minima.count
    if asked.report == 'energy':
        cut = EnergyCut(graph, asked.level)
        return cut.labels, cut.count
    return regions(cut_tree(graph, asked.kind), asked.level)


def text_of(graph, asked):
    report = asked.report
    if report in ('mintree', 'maxtree'):
        return components_report(graph.picture, report[:3])
    if report == 'tree':
        return tree_report(graph_tree(graph))
    if report == 'zones':
        return tree_report(zones_of(graph_tree(graph)))
    if report == 'saliency':
        return f'saliency {len(graph.edges)}\n' + numbered(saliency(graph, e) for e in range(len(graph.edges)))
    if report == 'attributes':
        return attributes_report(graph)
    if report == 'minima':
        return minima_report(graph)
    if report == 'watershed':
        return watershed_report(graph)
    if report == 'hierarchical':
        return hierarchical_report(graph, asked.kind)
    if report == 'cut':
        return labels_report(*labels_of(graph, asked))
    if report == 'energy':
        return energy_report(graph, asked.level)
    return summary_report(graph)


def picture_of(graph, asked):
    labels, count = labels_of(graph, asked)
    if count > 65535:
        raise Fault(14, 0, count)
    size = 1 if count < 256 else 2
    head = f'P5\n{graph.picture.width} {graph.picture.height}\n{count}\n'.encode()
    return head + b''.join(label.to_bytes(size, 'big') for label in labels)


# The words, and the whole run.

class Asked:
    """What words that are spelled `REPORT --NAME VALUE ..` ask for."""

    def __init__(self, words):
        self.report, options = words[0], dict(zip(words[1::2], words[2::2]))
        self.tile = int(options.get('--tile', 64))
        self.form = options.get('--form', 'text')
        self.level = int(options.get('--level', 0))
        self.kind = options.get('--kind', 'altitude' if self.report == 'cut' else 'dynamics')
        self.side, self.seed = int(options.get('--make', 0)), int(options.get('--seed', 1))


def tiles(graph, tile):
    if graph.picture is None:
        return -(-graph.n // tile)
    return -(-graph.picture.width // tile) * -(-graph.picture.height // tile)


def graph_of(data):
    return picture_graph(read_picture(data)) if is_picture(data) else read_edge_list(data)


def graph_from(asked, data):
    return picture_graph(made_picture(asked.side, asked.seed)) if asked.side else graph_of(data)


def report_about(graph, asked):
    if graph.picture is None and (asked.form == 'pgm' or asked.report in ('mintree', 'maxtree')):
        raise Fault(11, 0)
    if tiles(graph, asked.tile) > 65536:
        raise Fault(12, 0, tiles(graph, asked.tile))
    return picture_of(graph, asked) if asked.form == 'pgm' else text_of(graph, asked).encode()


def answer(words, data):
    """Status, standard output and standard error of a run on well-formed words."""
    try:
        asked = Asked(words)
        return 0, report_about(graph_from(asked, data), asked), b''
    except Fault as fault:
        return 3, b'', fault.line().encode()


# Batches.

def reading(piece):
    """The graph of a piece, or its fault."""
    try:
        return read_edge_list(piece)
    except Fault as fault:
        return fault


def job_text(number, read, asked):
    try:
        if isinstance(read, Fault):
            raise read
        report = report_about(read, asked)
        return f'job {number} 0 {len(report)}\n'.encode() + report
    except Fault as fault:
        return f'job {number} 3 {fault.number} {NAMES[fault.number]} {fault.at} {fault.value}\n'.encode()


def batch_answer(words, data):
    """Status, standard output and standard error of a batch on well-formed words."""
    try:
        pieces = data.split(b'\x0c')
        if len(pieces) > 4096:
            raise Fault(15, 0, len(pieces))
        readings = [reading(piece) for piece in pieces]
        vertices = sum(read.n for read in readings if isinstance(read, Graph))
        if vertices > 4194304:
            raise Fault(16, 0, vertices)
        asked = Asked(words)
        return 0, b''.join(job_text(number, read, asked) for number, read in enumerate(readings)), b''
    except Fault as fault:
        return 3, b'', fault.line().encode()
