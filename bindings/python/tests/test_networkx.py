"""Lists against networkx's monomorphisms, on its own real graphs and on random ones."""

import random
import unittest

from tests.common import needs, random_digraph
from rizhavaan import Hang, InputError, Pattern

try:
    import networkx
    from networkx.algorithms import isomorphism
except ImportError:
    networkx = None


def undirected(*edges, **kinds):
    pattern = networkx.Graph(edges)
    networkx.set_node_attributes(pattern, kinds, "kind")
    return pattern


def same_kind(data, pattern):
    """An item fits where the pattern asks for no kind, or for its."""
    return pattern.get("kind") in (None, data.get("kind"))


def some_kind(data, pattern):
    """Between two items each kind that the pattern asks for, of several edges of a multigraph."""
    if "kind" in data or "kind" in pattern or not data:
        return same_kind(data, pattern)
    kinds = {edge.get("kind") for edge in data.values()}
    asked = {edge.get("kind") for edge in pattern.values()} - {None}
    return asked <= kinds


def monomorphisms(graph, pattern, edge_match=same_kind):
    matcher = {
        (False, False): isomorphism.GraphMatcher,
        (True, False): isomorphism.DiGraphMatcher,
        (False, True): isomorphism.MultiGraphMatcher,
        (True, True): isomorphism.MultiDiGraphMatcher,
    }[graph.is_directed(), graph.is_multigraph()]
    found = matcher(graph, pattern, node_match=same_kind, edge_match=edge_match).subgraph_monomorphisms_iter()
    order = list(pattern)
    rows = []
    for match in found:
        place = {vertex: item for item, vertex in match.items()}
        rows.append(tuple(place[vertex] for vertex in order))
    return rows


@needs("networkx")
class RealGraphs(unittest.TestCase):
    def patterns(self):
        yield "edge", undirected((0, 1))
        yield "path", undirected((0, 1), (1, 2))
        yield "triangle", undirected((0, 1), (1, 2), (0, 2))
        yield "square", undirected((0, 1), (1, 2), (2, 3), (3, 0))
        yield "tailed triangle", undirected((0, 1), (1, 2), (0, 2), (2, 3))
        yield "four", networkx.complete_graph(4)

    def compare(self, graph, most=60_000, **how):
        hang = Hang.from_networkx(graph, **how)
        self.assertEqual(hang.summary.connections, 2 * graph.number_of_edges())
        listed = 0
        for title, pattern in self.patterns():
            with self.subTest(title):
                asked = Pattern.from_networkx(pattern)
                if hang.count(asked) > most:
                    continue
                places = hang.find(asked)
                rows = [tuple(place) for place in places]
                self.assertEqual(len(rows), len(set(rows)))
                self.assertEqual(set(rows), set(monomorphisms(graph, pattern)))
                self.assertEqual(hang.count(asked), len(rows))
                once = hang.find(asked, once=True)
                self.assertEqual(len(once) * places.images, len(places))
                self.assertEqual({frozenset(row) for row in once}, {frozenset(row) for row in rows})
                listed += len(rows)
        return listed

    def test_karate_club(self):
        self.assertGreater(self.compare(networkx.karate_club_graph(), connection=None), 4_000)

    def test_karate_club_by_club(self):
        graph = networkx.karate_club_graph()
        networkx.set_node_attributes(graph, {node: club for node, club in graph.nodes(data="club")}, "kind")
        hang = Hang.from_networkx(graph, connection=None)
        path = undirected((0, 1), (1, 2))
        networkx.set_node_attributes(path, {0: "Mr. Hi", 1: "Officer"}, "kind")
        rows = [tuple(place) for place in hang.find(Pattern.from_networkx(path))]
        self.assertEqual(sorted(rows), sorted(monomorphisms(graph, path)))
        self.assertTrue(rows)

    def test_les_miserables(self):
        self.assertGreater(self.compare(networkx.les_miserables_graph(), most=20_000), 4_000)

    def test_davis(self):
        graph = networkx.davis_southern_women_graph()
        listed = self.compare(graph, kind=lambda node, data: "woman" if data["bipartite"] == 0 else "event")
        self.assertGreater(listed, 1_000)

    def test_florentine(self):
        self.assertGreater(self.compare(networkx.florentine_families_graph()), 100)


@needs("networkx")
class RandomGraphs(unittest.TestCase):
    def pattern_of(self, numbers, multi=False):
        """A connected pattern: a tree, and some edges more; kinds left out here and there."""
        size = numbers.randrange(2, 6)
        pattern = networkx.MultiDiGraph() if multi else networkx.DiGraph()
        for vertex in range(size):
            pattern.add_node(f"p{vertex}", **({"kind": numbers.choice("ab")} if numbers.random() < 0.3 else {}))
        ends = [(numbers.randrange(vertex), vertex) for vertex in range(1, size)]
        ends += [tuple(numbers.sample(range(size), 2)) for _ in range(numbers.randrange(3))]
        seen = set()
        for a, b in ends:
            a, b = (a, b) if numbers.random() < 0.5 else (b, a)
            kind = numbers.choice(("x", "y", None, None))
            if (a, b, kind) in seen or (not multi and (a, b) in {pair[:2] for pair in seen}):
                continue
            # 'any' beside a kind asks for no more than the kind, but networkx counts edges.
            if multi and (kind is None or (a, b, None) in seen) and any(pair[:2] == (a, b) for pair in seen):
                continue
            seen.add((a, b, kind))
            pattern.add_edge(f"p{a}", f"p{b}", **({} if kind is None else {"kind": kind}))
        return pattern

    def test_directed(self):
        found = 0
        for seed in range(150):
            with self.subTest(seed=seed):
                numbers = random.Random(seed)
                vertices, edges = numbers.randrange(4, 10), numbers.randrange(10, 70)
                graph = random_digraph(networkx, numbers, vertices, edges, "ab", "xy")
                pattern = self.pattern_of(numbers)
                found += self.compare(graph, pattern, same_kind)
        self.assertGreater(found, 2_000)

    def test_multi(self):
        found = 0
        for seed in range(100):
            with self.subTest(seed=seed):
                numbers = random.Random(1_000 + seed)
                vertices, edges = numbers.randrange(4, 9), numbers.randrange(10, 90)
                graph = random_digraph(networkx, numbers, vertices, edges, "ab", "xy", multi=True)
                pattern = self.pattern_of(numbers, multi=True)
                found += self.compare(graph, pattern, some_kind)
        self.assertGreater(found, 2_000)

    def compare(self, graph, pattern, edge_match):
        hang, asked = Hang.from_networkx(graph), self.known(graph, pattern)
        expected = sorted(set(monomorphisms(graph, pattern, edge_match)))
        if asked is None:
            self.assertEqual(expected, [])
            return 0
        rows = [tuple(place) for place in hang.find(asked, plan=random.Random(len(graph)).choice(("best", "drawn")))]
        self.assertEqual(sorted(rows), expected)
        return len(rows)

    def known(self, graph, pattern):
        """The pattern, or nothing where it names a kind that the graph has not: that is an error and no empty list."""
        kinds = {kind for _, kind in graph.nodes(data="kind")}
        connections = {kind for _, _, kind in graph.edges(data="kind")}
        items_known = {kind for _, kind in pattern.nodes(data="kind")} - {None} <= kinds
        if items_known and {kind for _, _, kind in pattern.edges(data="kind")} - {None} <= connections:
            return Pattern.from_networkx(pattern)
        with self.assertRaises(InputError):
            Hang.from_networkx(graph).find(Pattern.from_networkx(pattern))
        return None


@needs("networkx")
class FromAndTo(unittest.TestCase):
    def test_there_and_back(self):
        numbers = random.Random(7)
        for multi in (False, True):
            graph = random_digraph(networkx, numbers, 12, 50, "abc", "xyz", multi)
            back = Hang.from_networkx(graph).to_networkx()
            self.assertEqual(dict(back.nodes(data="kind")), dict(graph.nodes(data="kind")))
            self.assertEqual(set(back.edges(data="kind")), set(graph.edges(data="kind")))

    def test_days_kinds_and_nodes_of_any_type(self):
        import datetime

        graph = networkx.DiGraph()
        graph.add_node(("north", 1), kind="motor", day="2025-08-11")
        graph.add_node(("north", 2), kind="motor", day=datetime.date(2026, 4, 20))
        graph.add_node(3, kind=9, day=datetime.datetime(2026, 4, 21, 12))
        graph.add_node("plain", day=9_000)
        graph.add_edge(("north", 1), 3, kind=7)
        graph.add_edge(("north", 2), 3, kind=7)
        hang = Hang.from_networkx(graph)
        self.assertEqual(hang.items, tuple(graph))
        self.assertEqual(hang.item(("north", 2)), {"kind": "motor", "day": "2026-04-20"})
        self.assertEqual(hang.item(3), {"kind": 9, "day": "2026-04-21"})
        self.assertEqual(hang.item("plain"), {"day": 9_000})
        pattern = networkx.DiGraph()
        pattern.add_node("old", kind="motor", inspected=("2025-01-01", datetime.date(2025, 12, 31)))
        pattern.add_node("below", kind=9)
        pattern.add_edge("old", "below", kind=7)
        place = hang.find(Pattern.from_networkx(pattern, name="old one", sentence="An old one."))[0]
        self.assertEqual((place.old, place.below), (("north", 1), 3))
        after = hang.changed([("-", ("north", 1), 7, 3)])
        self.assertEqual(len(after.find(Pattern.from_networkx(pattern))), 0)
        self.assertEqual(after.items, tuple(graph))

    def test_loops(self):
        graph = networkx.Graph([(0, 0), (0, 1)])
        self.assertEqual(Hang.from_networkx(graph).summary.connections, 3)
        with self.assertRaisesRegex(InputError, "two different vertices"):
            Pattern.from_networkx(graph)

    def test_parallel_edges(self):
        graph = networkx.MultiDiGraph([("a", "b", {"kind": "x"}), ("a", "b", {"kind": "x"}), ("a", "b", {"kind": "y"})])
        self.assertEqual(Hang.from_networkx(graph).summary.connections, 2)
        with self.assertRaisesRegex(InputError, "already"):
            Pattern.from_networkx(graph)


if __name__ == "__main__":
    unittest.main()
