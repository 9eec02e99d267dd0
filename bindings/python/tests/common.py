"""What the tests share."""

import importlib.util
import pathlib
import unittest

TOP = pathlib.Path(__file__).resolve().parents[3]
EXAMPLES = TOP / "examples"


def needs(*modules):
    """Skips a test where a module is not installed, and says which."""
    missing = [module for module in modules if importlib.util.find_spec(module) is None]
    return unittest.skipIf(missing, f"not installed: {', '.join(missing)}")


def stage_rig():
    """The crew's rig and its book of rules."""
    folder = EXAMPLES / "stage-rig"
    return (folder / "hang.txt").read_text(encoding="utf-8"), (folder / "rules.txt").read_text(encoding="utf-8")


def random_digraph(networkx, numbers, vertices, edges, item_kinds, connection_kinds, multi=False):
    """A random graph with kinds, and no loops."""
    graph = networkx.MultiDiGraph() if multi else networkx.DiGraph()
    for vertex in range(vertices):
        graph.add_node(f"v{vertex}", kind=numbers.choice(item_kinds))
    names = list(graph)
    for _ in range(edges):
        a, b = numbers.sample(names, 2)
        graph.add_edge(a, b, kind=numbers.choice(connection_kinds))
    return graph
