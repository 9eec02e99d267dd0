"""The package by itself: hangs, patterns and places as their users take them."""

import html.parser
import io
import pathlib
import pickle
import tempfile
import unittest
import warnings
import xml.dom.minidom

import rizhavaan
from rizhavaan import Hang, Pattern, Refused
from tests.common import EXAMPLES, needs, stage_rig

TWO = """[query two]
truss: truss
left: motor
right: motor
left -carries-> truss
right -carries-> truss
"""


class Hangs(unittest.TestCase):
    def setUp(self):
        self.hang = Hang.from_text(*stage_rig())

    def test_what_a_text_has(self):
        self.assertEqual(len(self.hang), 13)
        self.assertEqual(self.hang.items[5], "motor 4 (spare)")
        self.assertEqual(self.hang.summary.item_kinds, {"motor": 5, "truss": 3, "lamp": 3, "beam": 2})
        self.assertEqual(list(self.hang.patterns), ["two-lapsed", "wired-lamps", "over-people"])
        self.assertEqual(self.hang.item("motor-2"), {"kind": "motor", "day": "2025-08-11"})

    def test_text_tables_and_files_are_one(self):
        folder = EXAMPLES / "stage-rig"
        tables = Hang.from_csv(folder / "items.csv", folder / "connections.csv", folder / "rules.txt")
        with open(folder / "items.csv", newline="", encoding="utf-8") as items:
            with open(folder / "connections.csv", "rb") as connections:
                opened = Hang.from_csv(items, connections)
        files = Hang.from_files(folder / "hang.txt", str(folder / "rules.txt"))
        again = Hang.from_text(self.hang.to_text())
        pattern = self.hang.patterns["over-people"]
        expected = sorted(self.hang.find(pattern))
        self.assertEqual(len(expected), 8)
        for hang in (tables, opened, files, again):
            self.assertEqual(sorted(hang.find(pattern)), expected)
        self.assertEqual([rule.holds for rule in tables.check()], [False, True, True])

    def test_a_table_of_another_name_is_one(self):
        items, connections = io.StringIO("name,kind\na,beam\nb,motor\n"), io.BytesIO(b"from,kind,to\na,carries,b\n")
        self.assertEqual(Hang.from_csv(items, connections).summary.connections, 1)
        with tempfile.TemporaryDirectory() as folder:
            path = pathlib.Path(folder) / "items.txt"
            path.write_text("name;kind\na;beam\n")
            self.assertEqual(len(Hang.from_csv(path, io.StringIO("from,kind,to\n"))), 1)

    def test_changed(self):
        old, new = self.hang, self.hang.changed()
        before, after = (set(hang.find("over-people")) for hang in (old, new))
        self.assertNotEqual(before, after)
        self.assertEqual(new.patterns, old.patterns)
        lines = stage_rig()[0].split("[changes]")[1].splitlines()
        other = {"+": "-", "-": "+"}
        undone = new.changed([other[line[0]] + line[1:] for line in lines if line[:1] in other])
        self.assertEqual(set(undone.find("over-people")), before)
        self.assertEqual(set(old.find("over-people")), before)
        spare = "motor 4 (spare)"
        parts = old.changed([("-", spare, "carries", "back-truss"), ["+", spare, "carries", "front-truss"]])
        self.assertEqual(parts.count(Pattern.from_text(TWO)), 12)

    def test_warnings_are_pythons(self):
        with self.assertWarnsRegex(rizhavaan.TextWarning, "look like one") as caught:
            Hang.from_text("[graph]\na: motor\nb: moter\n")
        self.assertEqual(caught.filename, __file__)

    def test_notes(self):
        items = io.StringIO("name,kind,owner\na,beam,house\n")
        hang = Hang.from_csv(items, io.StringIO("from,kind,to\n"))
        self.assertEqual(hang.item("a"), {"kind": "beam", "notes": {"owner": "house"}})


class Work(unittest.TestCase):
    def setUp(self):
        self.hang = Hang.from_text(*stage_rig())

    def test_once_and_count(self):
        two = Pattern.from_text(TWO)
        self.assertEqual(two.images, 2)
        self.assertEqual((self.hang.count(two), self.hang.count(two, once=True)), (8, 4))
        once = self.hang.find(two, once=True)
        self.assertEqual(once.pairs_added, ["left < right"])
        self.assertEqual(len(once), 4)

    def test_plans_list_the_same(self):
        expected = sorted(self.hang.find("over-people"))
        for plan in ("best", "picked", "drawn", "cheapest"):
            places = self.hang.find("over-people", plan=plan)
            self.assertEqual(sorted(places), expected)
            self.assertEqual(sum(record.cost for record in places.records), places.cost)
        self.assertEqual(self.hang.find("over-people", plan="drawn").plan_from, "drawn")

    def test_a_given_plan(self):
        given = Pattern.from_text(TWO + "[plan]\nscan right -carries-> truss\nextend left\n")
        places = self.hang.find(given)
        self.assertEqual((places.plan_from, places.plan), ("given", ["scan right -carries-> truss", "extend left"]))
        with self.assertRaises(Refused) as caught:
            self.hang.find(Pattern.from_text(TWO + "[plan]\nscan right -carries-> truss\n"))
        self.assertEqual((caught.exception.number, caught.exception.name), (18, "PlanUncovered"))

    def test_bounds_hold(self):
        for name in self.hang.patterns:
            bounds, places = self.hang.bounds(name), self.hang.find(name)
            self.assertLessEqual(len(places) * len(places.pattern), bounds.list_words)
            self.assertLessEqual(places.cost, bounds.cost)
            self.assertLessEqual(max(record.rows for record in places.records), bounds.largest)

    def test_orderings(self):
        orderings = self.hang.orderings("over-people")
        self.assertEqual([o.cost for o in orderings if o.cheapest], [min(o.cost for o in orderings)])
        self.assertEqual(sum(o.drawn for o in orderings), 1)
        drawn = next(o for o in orderings if o.drawn)
        self.assertEqual(self.hang.find("over-people", plan="drawn").cost, drawn.cost)
        long = Pattern.from_text("[query]\nvertices 6\n" + "".join(f"{i} -any-> {i + 1}\n" for i in range(5)))
        with self.assertRaises(Refused) as caught:
            self.hang.orderings(long)
        self.assertEqual(caught.exception.number, 31)

    def test_explain(self):
        told = self.hang.explain("over-people")
        self.assertIn("The cost counts the entries", str(told))
        self.assertEqual((told.places, sum(record.cost for record in told.records)), (8, told.cost))
        self.assertTrue(told._repr_html_().startswith("<pre>"))

    def test_memory(self):
        edges = "".join(f"{i} -1-> {j}\n" for i in range(60) for j in range(60) if i != j)
        hang = Hang.from_text(f"[graph]\nvertices 60\n{edges}")
        path = Pattern.from_text("[query]\nvertices 4\n0 -any-> 1\n1 -any-> 2\n2 -any-> 3\n")
        with self.assertRaises(rizhavaan.MemoryLimit) as caught:
            hang.find(path, memory="1M")
        self.assertIsInstance(caught.exception, MemoryError)
        self.assertIn("memory=", str(caught.exception))
        self.assertEqual(len(hang.find(path, memory=1_000_000_000)), 60 * 59 * 58 * 57)
        self.assertEqual(hang.count(path, memory="1M"), 60 * 59 * 58 * 57)

    def test_refusals(self):
        numbers = [refusal["number"] for refusal in rizhavaan.refusals()]
        self.assertEqual(numbers, [*range(1, 23), *range(24, 36)])
        error = Refused(20, "ScratchSmall", "more")
        copy = pickle.loads(pickle.dumps(error))
        self.assertEqual((copy.number, copy.name, copy.sentence), (20, "ScratchSmall", "more"))


class ListOfPlaces(unittest.TestCase):
    def setUp(self):
        self.hang = Hang.from_text(*stage_rig())
        self.places = self.hang.find("over-people")

    def test_a_sequence(self):
        rows = list(self.places)
        self.assertEqual(len(rows), len(self.places))
        for ends in ((None,), (2, 5), (None, None, -1), (-3, None), (1, 8, 3), (5, 2), (7, None, -2)):
            part = slice(*ends)
            self.assertEqual(list(self.places[part]), rows[part])
            self.assertEqual(len(self.places[part]), len(rows[part]))
            self.assertEqual(self.places[part].to_csv().splitlines()[1:], [",".join(row) for row in rows[part]])
        self.assertEqual(list(self.places[1:][::2][1:]), rows[1:][::2][1:])
        self.assertEqual(self.places[-1], rows[-1])
        self.assertIn(rows[3], self.places)
        self.assertEqual(self.places.index(rows[3]), 3)
        self.assertEqual(rows[0]._fields, ("beam", "motor", "truss", "lamp"))
        for index in (8, -9, 10**30):
            with self.assertRaises(IndexError):
                self.places[index]
        with self.assertRaises(TypeError):
            self.places["beam"]

    def test_numbers(self):
        rows = [[self.hang.items.index(item) for item in place] for place in self.places]
        self.assertEqual(self.places.numbers.tolist(), rows)
        self.assertEqual(self.places[::-2].numbers.tolist(), rows[::-2])
        self.assertEqual(self.places[:0].numbers.tolist(), [])
        with self.assertRaises(TypeError):
            self.places.numbers[0, 0] = 1

    def test_numbers_outlive_their_list(self):
        numbers = self.hang.find("over-people").numbers
        expected = self.places.numbers.tolist()
        for _ in range(50):
            self.hang.find("wired-lamps")
        self.assertEqual(numbers.tolist(), expected)

    @needs("numpy")
    def test_numpy(self):
        import numpy

        array = self.places.to_numpy()
        self.assertEqual((array.shape, array.dtype), ((8, 4), numpy.uint32))
        self.assertEqual(array.tolist(), self.places.numbers.tolist())
        self.assertFalse(array.flags.writeable)
        self.assertFalse(array.flags.owndata)
        self.assertTrue(numpy.shares_memory(array, self.places.to_numpy()))
        for part in (slice(2, 5), slice(None, None, -1), slice(7, None, -3), slice(5, 2), slice(-2, None)):
            self.assertEqual(self.places[part].to_numpy().tolist(), array[part].tolist())
        empty = Hang.from_text("[graph]\nvertices 2\n").find(Pattern.from_text("[query]\nvertices 2\n0 -any-> 1\n"))
        self.assertEqual(empty.to_numpy().shape, (0, 2))

    @needs("pandas", "numpy")
    def test_pandas(self):
        import pandas

        frame = self.places.to_pandas()
        self.assertEqual(list(frame.columns), ["beam", "motor", "truss", "lamp"])
        self.assertEqual([tuple(row) for row in frame.itertuples(index=False)], [tuple(place) for place in self.places])
        days = pandas.to_datetime(["2025-08-11", None, "2026-01-02"])
        kinds, owners = ["beam", "motor", None], ["house", None, "hire"]
        items = pandas.DataFrame({"id": ["a", "b", "c"], "kind": kinds, "day": days, "owner": owners})
        edges = pandas.DataFrame({"u": ["a", "b"], "v": ["b", "c"]})
        hang = Hang.from_pandas(items, edges, name="id", source="u", target="v", connection=None)
        self.assertEqual(hang.item("a"), {"kind": "beam", "day": "2025-08-11", "notes": {"owner": "house"}})
        self.assertEqual(hang.item("c"), {"day": "2026-01-02", "notes": {"owner": "hire"}})
        self.assertEqual(hang.summary.connection_kinds, {"edge": 2})

    @needs("pandas", "numpy")
    def test_ten_thousand_rows(self):
        edges = "".join(f"{i} -1-> {j}\n" for i in range(101) for j in range(101) if i != j)
        hang = Hang.from_text(f"[graph]\nvertices 101\n{edges}")
        places = hang.find(Pattern.from_text("[query]\nvertices 2\n0 -any-> 1\n"))
        frame = places.to_pandas()
        self.assertEqual(frame.shape, (10_100, 2))
        expected = {(str(i), str(j)) for i in range(101) for j in range(101) if i != j}
        self.assertEqual(set(map(tuple, frame.itertuples(index=False))), expected)

    def test_empty(self):
        places = self.hang.find(Pattern.from_text("[query]\na: lamp\nb: beam\na -carries-> b\n"))
        self.assertEqual((len(places), list(places)), (0, []))
        self.assertIn("no two items that fit have a -carries-> b", places.why)
        self.assertIn(places.why, str(places))
        self.assertIsNone(self.places.why)

    def test_sheet(self):
        page = self.places.sheet()[0]
        self.assertEqual(len(page), 4_860)
        lines = [[int(number) for number in line.split()] for line in page.splitlines()]
        self.assertEqual(lines[0], [1, 1])
        self.assertEqual(lines[1:9], self.places.numbers.tolist())
        part = self.places[6:].sheet()[0].splitlines()
        self.assertEqual([[int(n) for n in line.split()] for line in part[1:3]], self.places.numbers.tolist()[6:])
        self.assertIn("motor 4 (spare)", self.places.key())
        many = Hang.from_text("[graph]\nvertices 100\n" + "".join(f"{i} -1-> {i + 1}\n" for i in range(99)))
        self.assertEqual(len(many.find(Pattern.from_text("[query]\nvertices 2\n0 -any-> 1\n")).sheet()), 2)

    @needs("networkx")
    def test_one_place_as_a_graph(self):
        graph = self.places.to_networkx(-1)
        self.assertEqual({data["vertex"]: item for item, data in graph.nodes(data=True)}, self.places[-1]._asdict())
        self.assertEqual(sorted(kind for _, _, kind in graph.edges(data="kind")), ["carries", "carries", "clamp"])
        self.assertEqual(graph.nodes[self.places[-1].motor]["kind"], "motor")
        both = self.hang.find(Pattern.from_text("[query]\na: truss\nb: lamp\na -any-> b\n")).to_networkx()
        self.assertEqual(sorted(both.edges(keys=True))[0][2], "clamp")
        self.assertEqual(both.number_of_edges(), 2)

    def test_in_a_notebook(self):
        class Cells(html.parser.HTMLParser):
            cells = []

            def handle_data(self, data):
                self.cells.append(data)

        parser = Cells()
        parser.feed(self.places._repr_html_())
        self.assertIn("motor 4 (spare)", parser.cells)
        self.assertIn("over-people: 8 places", parser.cells)
        graph, query = '"<script>": beam\nb: motor\n"<script>" -carries-> b\n', "x: beam\ny: motor\nx -carries-> y\n"
        odd = Hang.from_text(f"[graph]\n{graph}[query]\n{query}")
        for shown in (odd.find("query")._repr_html_(), odd._repr_html_(), odd.find("query").picture().svg):
            self.assertNotIn("<script>", shown)
        self.assertIn("&lt;script&gt;", odd.find("query")._repr_html_())

    def test_pictures(self):
        parts = self.places, self.places[2:3], self.places[:0]
        for picture in (self.hang.picture(), *(self.hang.picture(part) for part in parts), self.places.picture()):
            drawn = xml.dom.minidom.parseString(picture._repr_svg_())
            self.assertEqual(drawn.documentElement.tagName, "svg")
            self.assertEqual(len(drawn.getElementsByTagName("rect")), 1 + 13)
            self.assertTrue(picture.dot.startswith("digraph"))
        marked = [self.hang.picture(part).svg.count('stroke-width="3"/>') for part in (self.places[:1], self.places)]
        self.assertEqual(marked, [4, len({item for place in self.places for item in place})])
        with tempfile.TemporaryDirectory() as folder:
            path = pathlib.Path(folder) / "rig.svg"
            self.hang.picture().save(path)
            self.assertEqual(path.read_text(encoding="utf-8"), self.hang.picture().svg)
        with self.assertRaises(ValueError):
            Hang.from_text(*stage_rig()).picture(self.places)

    def test_vertices_that_are_no_python_names(self):
        pattern = Pattern.from_text('[query]\n"left motor": motor\nclass: truss\n"left motor" -carries-> class\n')
        place = self.hang.find(pattern)[0]
        self.assertEqual(place._fields, ("_0", "_1"))
        self.assertEqual(pattern.vertices, ("left motor", "class"))


class Patterns(unittest.TestCase):
    def test_text_comes_back(self):
        for name, pattern in Hang.from_text(*stage_rig()).patterns.items():
            self.assertEqual(Pattern.from_text(pattern.text), pattern)
            self.assertEqual(pickle.loads(pickle.dumps(pattern)), pattern)
            self.assertEqual(pattern.name, name)
            self.assertEqual(len({pattern, Pattern.from_text(pattern.text)}), 1)

    def test_kinds_of_its_own(self):
        text = "[kinds]\nitem motor 5\n[query]\na: motor\nvertex b\na -hangs-> b\n"
        self.assertEqual(Pattern.from_text(text).text, "[query]\na: motor\nvertex b\na -hangs-> b\n")
        with self.assertRaisesRegex(rizhavaan.InputError, "no kind of item 'truss'"):
            Pattern.from_text(text.replace("a: motor", "a: truss"))

    def test_a_book_of_rules(self):
        book = stage_rig()[1]
        with self.assertRaisesRegex(rizhavaan.InputError, "several patterns.*two-lapsed, wired-lamps, over-people"):
            Pattern.from_text(book)
        self.assertEqual(Pattern.from_text(book, "wired-lamps").vertices, ("truss", "lamp"))
        with self.assertRaisesRegex(rizhavaan.InputError, "did you mean 'wired-lamps'"):
            Pattern.from_text(book, "wired-lamp")

    def test_several_hundred_words(self):
        items = "".join(f"[query q{i}]\na{i}: kind{i}\nb{i}: other{i}\na{i} -x-> b{i}\n" for i in range(300))
        self.assertEqual(Pattern.from_text(items, "q7").vertices, ("a7", "b7"))


class Examples(unittest.TestCase):
    def test_every_example_has_its_rows(self):
        compared = 0
        for folder in sorted(path for path in EXAMPLES.iterdir() if (path / "expected.txt").is_file()):
            with self.subTest(folder.name), warnings.catch_warnings():
                warnings.simplefilter("ignore", rizhavaan.TextWarning)
                hang = Hang.from_files(folder / "hang.txt")
                name = next(iter(hang.patterns))
                lines = (folder / "expected.txt").read_text().splitlines()
                if lines[0].startswith("refused"):
                    with self.assertRaises(Refused) as caught:
                        hang.find(name)
                    self.assertEqual(caught.exception.number, int(lines[0].split()[1]))
                    continue
                lists = []
                for line in lines:
                    if line[0].isdigit():
                        lists[-1].append(tuple(map(int, line.split())))
                    else:
                        lists.append([])
                hangs = [hang] if len(lists) == 1 else [hang, hang.changed()]
                for of, rows in zip(hangs, lists):
                    self.assertEqual(sorted(map(tuple, of.find(name).numbers.tolist())), sorted(rows))
                    compared += len(rows)
        self.assertGreater(compared, 20)


if __name__ == "__main__":
    unittest.main()
