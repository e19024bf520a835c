#!/usr/bin/env python3
"""A tree in the forms of other programs.

  trees.py nested [--names GRAPH] < REPORT    JSON for networkx.tree_graph: {"id": .., "altitude": .., "children": [..]}
  trees.py newick [--names GRAPH] < REPORT    Newick; a branch is as long as the altitude changes along it
  trees.py linkage < REPORT                   a table for scipy.cluster.hierarchy.dendrogram: CHILD CHILD ALTITUDE LEAVES

REPORT is that of tree, zones, hierarchical, mintree or maxtree, and of tree or hierarchical for linkage. GRAPH is an edge list
of names.py, whose names the leaves then have. nested and newick have a line for each root. In a linkage, roots are joined in
order, one above the greatest altitude.
"""
import argparse
import json
import sys

import higra
import names


def children_of(tree):
    children = [[] for _ in tree.parents]
    for node, parent in enumerate(tree.parents):
        if parent != node:
            children[parent].append(node)
    return children


def roots_of(tree):
    return [node for node, parent in enumerate(tree.parents) if parent == node]


def written(root, children, opening, closing):
    """The text of all below a root, from the left. There is no recursion, since a tree may be as deep as it has nodes."""
    texts, waiting = [], [root]
    while waiting:
        item = waiting.pop()
        if isinstance(item, str):
            texts.append(item)
            continue
        texts.append(opening(item))
        waiting.append(closing(item))
        for place, child in enumerate(reversed(children[item])):
            waiting += [',', child] if place else [child]
    return ''.join(texts)


def nested(tree, name):
    children = children_of(tree)

    def opening(node):
        return f'{{"id": {json.dumps(name(node))}, "altitude": {tree.altitudes[node]}, "children": ['
    return [written(root, children, opening, lambda _: ']}') for root in roots_of(tree)]


def newick(tree, name):
    children = children_of(tree)

    def label(node):
        text = str(name(node))
        return text if text.isalnum() else "'" + text.replace("'", "''") + "'"

    def closing(node):
        length = abs(tree.altitudes[tree.parents[node]] - tree.altitudes[node])
        return (')' if children[node] else '') + label(node) + (f':{length}' if tree.parents[node] != node else ';')
    return [written(root, children, lambda node: '(' if children[node] else '', closing) for root in roots_of(tree)]


def linkage(tree):
    """The rows of the table. Row i makes node i + leaves, and these are the tree's own numbers."""
    children, counts, rows = children_of(tree), [1] * tree.leaves, []

    def join(pair, altitude):
        counts.append(counts[pair[0]] + counts[pair[1]])
        rows.append((*pair, altitude, counts[-1]))
    for node in range(tree.leaves, len(tree.parents)):
        if len(children[node]) != 2:
            sys.exit(f'trees.py: node {node} has not two children')
        join(children[node], tree.altitudes[node])
    joined, *others = roots_of(tree)
    for root in others:
        join((joined, root), max(tree.altitudes) + 1)
        joined = len(counts) - 1
    return rows


def main():
    asked = argparse.ArgumentParser(description=__doc__, formatter_class=argparse.RawDescriptionHelpFormatter)
    asked.add_argument('form', choices=['nested', 'newick', 'linkage'])
    asked.add_argument('--names')
    given = asked.parse_args()
    report = higra.read(sys.stdin.buffer.read())
    tree = report.tree if isinstance(report, higra.Hierarchical) else report
    leaves = names.read_names(given.names)[0] if given.names else []
    if given.form == 'linkage':
        lines = [' '.join(map(str, row)) for row in linkage(tree)]
    else:
        form = {'nested': nested, 'newick': newick}[given.form]
        lines = form(tree, lambda node: leaves[node] if node < len(leaves) else node)
    sys.stdout.writelines(line + '\n' for line in lines)


if __name__ == '__main__':
    main()
