#!/usr/bin/env python3
"""From a graph of networkx to an edge list.

  networkx_edges.py FILE.graphml [--weight NAME] [--scale N] > FILE.graph

NAME is the attribute of an edge that has its weight (default weight); an edge without it weighs 1. A weight times N (default 1)
is rounded to a whole number. The nodes stand in the edge list as comments, by which names.py takes a report back to them, and
trees.py a tree: its nested form is what networkx.tree_graph takes. In a program, edge_list_of(graph) gives the text.
"""
import argparse
import sys

import networkx

import names


def edge_list_of(graph, weight='weight', scale=1):
    numbers = {node: number for number, node in enumerate(graph)}
    edges = [(numbers[u], numbers[v], round(value * scale)) for u, v, value in graph.edges(data=weight, default=1)]
    return names.edge_list(list(map(str, numbers)), edges)


def main():
    asked = argparse.ArgumentParser(description=__doc__, formatter_class=argparse.RawDescriptionHelpFormatter)
    asked.add_argument('file')
    asked.add_argument('--weight', default='weight')
    asked.add_argument('--scale', type=float, default=1)
    given = asked.parse_args()
    sys.stdout.write(edge_list_of(networkx.read_graphml(given.file), given.weight, given.scale))


if __name__ == '__main__':
    main()
