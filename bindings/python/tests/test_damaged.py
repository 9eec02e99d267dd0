"""Damaged arguments: each is a Python error, none a crash."""

import io
import random
import unittest
import warnings

import rizhavaan
from rizhavaan import Hang, InputError, Pattern, Refused
from tests.common import needs, stage_rig

#: What a caller may hand over where something else is expected.
JUNK = [None, True, 0, -1, 1 << 70, 0.5, float("nan"), "", "\0", "[", "\ud800", b"", b"\xff"]
JUNK += [[], [1], {}, {"a": 1}, object(), int, len, range(3), (1, 2, 3, 4)]


class WrongTypes(unittest.TestCase):
    def setUp(self):
        self.hang = Hang.from_text(*stage_rig())
        self.pattern = self.hang.patterns["over-people"]

    def refuses(self, call, *arguments, allowed=(), **named):
        """The call raises an error of Python or of the package, or answers where that is allowed; nothing internal."""
        with warnings.catch_warnings():
            warnings.simplefilter("ignore")
            try:
                call(*arguments, **named)
            except (TypeError, ValueError, LookupError, AttributeError, OSError, ImportError) as error:
                self.assertTrue(str(error))
            except rizhavaan.Error as error:
                self.assertIsNot(type(error), rizhavaan.Error, error)
            else:
                given = (*arguments, *named.values())
                is_allowed = any(type(one) is type(allow) and one == allow for one in given for allow in allowed)
                self.assertTrue(is_allowed, f"{call} took {given!r}")

    def test_hangs(self):
        for junk in JUNK:
            with self.subTest(junk=junk):
                self.refuses(Hang.from_text, junk)
                self.refuses(Hang.from_text, stage_rig()[0], junk, allowed=[junk] if junk in ("", b"") else [])
                self.refuses(Hang.from_files, junk)
                self.refuses(Hang.from_csv, junk, junk)
                self.refuses(Hang.from_networkx, junk)
                self.refuses(Hang.from_pandas, junk, junk)
                self.refuses(Hang, junk)
                self.refuses(self.hang.item, junk)
                self.refuses(self.hang.changed, junk, allowed=[None, [], {}])
                # An empty line changes nothing.
                self.refuses(lambda change: self.hang.changed([change]), junk, allowed=[""])
                for place in range(4):
                    change = ["+", "beam-south", "carries", "front-truss"]
                    change[place] = junk
                    self.refuses(self.hang.changed, [tuple(change)])

    def test_patterns(self):
        for junk in JUNK:
            with self.subTest(junk=junk):
                self.refuses(Pattern, junk)
                self.refuses(Pattern.from_text, junk)
                self.refuses(Pattern.from_text, self.pattern.text, junk, allowed=[None])
                self.refuses(Pattern.from_networkx, junk)

    def test_finding(self):
        calls = [self.hang.find, self.hang.count, self.hang.bounds, self.hang.orderings, self.hang.explain]
        for junk in JUNK:
            with self.subTest(junk=junk):
                for call in calls:
                    self.refuses(call, junk)
                for call in (self.hang.find, self.hang.count, self.hang.explain):
                    self.refuses(call, self.pattern, plan=junk)
                    # A number of bytes that is small holds no run.
                    self.refuses(call, self.pattern, memory=junk, allowed=[None])
                self.refuses(self.hang.picture, junk, allowed=[None])
                places = self.hang.find(self.pattern)
                self.refuses(places.__getitem__, junk, allowed=[0, -1, True])
                self.refuses(places.to_networkx, junk, allowed=[0, -1, True])
                self.refuses(rizhavaan.Places, junk)

    def test_made_by_hand(self):
        """Things that were not made by the package have no library behind them."""
        for made in (object.__new__(Hang), object.__new__(Pattern), object.__new__(rizhavaan.Places)):
            self.refuses(self.hang.find, made)
            self.refuses(lambda made=made: made.find(self.pattern))
            self.refuses(lambda made=made: len(made))
            self.refuses(lambda made=made: made[0])
        with self.assertRaises(TypeError):
            import pickle

            pickle.dumps(self.hang)


class Unknown(unittest.TestCase):
    def setUp(self):
        self.hang = Hang.from_text(*stage_rig())

    def test_names(self):
        with self.assertRaisesRegex(KeyError, "no pattern 'two'"):
            self.hang.find("two")
        with self.assertRaises(KeyError):
            self.hang.item("motor-9")
        with self.assertRaisesRegex(InputError, "no item 'motor-9' has been declared.*did you mean") as caught:
            self.hang.changed(["+ motor-9 -carries-> front-truss"])
        self.assertEqual((caught.exception.faults[0].line, caught.exception.faults[0].column), (2, 3))
        with self.assertRaisesRegex(InputError, "did you mean 'carries'"):
            self.hang.find(Pattern.from_text("[query]\na: motor\nb: truss\na -caries-> b\n"))
        with self.assertRaisesRegex(InputError, "no kind of item 'moter'.*did you mean 'motor'"):
            self.hang.find(Pattern.from_text("[query]\na: moter\nb: truss\na -carries-> b\n"))
        with self.assertRaisesRegex(InputError, "there is no plan 'quick'"):
            self.hang.find("two-lapsed", plan="quick")
        with self.assertRaisesRegex(InputError, "write it as 500M"):
            self.hang.find("two-lapsed", memory="much")
        with self.assertRaises(FileNotFoundError):
            Hang.from_files("/nowhere/hang.txt")

    def test_numbers_out_of_range(self):
        for text, said in (
            ("[query]\nvertices 2\n0 -256-> 1\n", "not within 1 to 255"),
            ("[query]\nvertices 9\n0 -any-> 1\n", "more than 8 vertices"),
            ("[query]\nvertices 2\n0 -any-> 2\n", "no vertex '2'"),
            ("[query]\na: motor inspected 2026-13-01..\nvertex b\na -any-> b\n", "no month 13"),
            ("[query]\nvertices 2 label 65536\n0 -any-> 1\n", "not within 0 to 65535"),
        ):
            with self.assertRaisesRegex(InputError, said):
                Pattern.from_text(text)
        with self.assertRaisesRegex(InputError, "more than 65535"):
            Hang.from_text("[graph]\nvertices 65536\n")

    def test_refused_changes(self):
        with self.assertRaises(Refused) as caught:
            self.hang.changed(["+ beam-north -carries-> motor-1"])
        self.assertEqual((caught.exception.number, caught.exception.name), (28, "ChangesEdge"))
        self.assertIn("beam-north -carries-> motor-1", caught.exception.sentence)
        with self.assertRaisesRegex(InputError, "there are no \\[changes\\]"):
            Hang.from_text("[graph]\na: beam\n").changed()

    def test_all_faults_of_a_text(self):
        with self.assertRaises(InputError) as caught:
            Hang.from_text("[graph]\n" + "nonsense\n" * 50)
        self.assertEqual(len(caught.exception.faults), 50)
        self.assertTrue(str(caught.exception).endswith("and 30 more"))
        with self.assertRaisesRegex(InputError, "not UTF-8"):
            Hang.from_text(b"[graph]\n\xff\n")
        with self.assertRaisesRegex(InputError, "there is no hang"):
            Hang.from_text("[query]\nvertices 2\n0 -any-> 1\n")
        with self.assertRaisesRegex(InputError, "expected a head"):
            Hang.from_csv(io.StringIO("a,b\n"), io.StringIO("c,d\n"))

    def test_lines_that_would_be_others(self):
        for change in ("[graph]", " [query]", "+ a -b-> c\n[query x]", "a\tb"):
            with self.assertRaises(InputError):
                self.hang.changed([change])


@needs("networkx")
class DamagedGraphs(unittest.TestCase):
    def test_attributes(self):
        import networkx

        def graph(**data):
            made = networkx.DiGraph()
            made.add_node("a", **data)
            made.add_edge("a", "b")
            return made

        for junk in (-1, 0, True, 1 << 40, 0.5, [], object(), b"x", "7", "2026-01-01", "a\nb", "\ud800"):
            with self.subTest(junk=junk), self.assertRaises((TypeError, ValueError)):
                Hang.from_networkx(graph(kind=junk))
            with self.subTest(junk=junk), self.assertRaises((TypeError, ValueError)):
                Pattern.from_networkx(graph(inspected=junk))
        for junk in (-1, True, 1 << 40, 0.5, [], object(), b"x", "tomorrow", "1999-01-01"):
            with self.subTest(junk=junk), self.assertRaises((TypeError, ValueError)):
                Hang.from_networkx(graph(day=junk))
        for junk in (-1, 0, True, 256, [], "9"):
            made = networkx.DiGraph()
            made.add_edge("a", "b", kind=junk)
            with self.subTest(junk=junk), self.assertRaises((TypeError, ValueError)):
                Hang.from_networkx(made)
        for junk in (0.5, [], 7, object()):
            with self.subTest(junk=junk), self.assertRaises(TypeError):
                Hang.from_networkx(graph(), kind=junk)
            with self.subTest(junk=junk), self.assertRaises(TypeError):
                Hang.from_networkx(graph(), connection=junk)

    def test_names(self):
        import networkx

        damages = {(1, "1"): "both named '1'", ("",): "at least one letter", ("a\nb",): "control characters"}
        for nodes, said in damages.items():
            made = networkx.DiGraph()
            made.add_nodes_from(nodes)
            with self.assertRaisesRegex(InputError, said):
                Hang.from_networkx(made)
        names = networkx.DiGraph([("[query]", "# a"), ("# a", '"b"'), ('"b"', "a -x-> b"), ("a -x-> b", "<")])
        rows = Hang.from_networkx(names).find(Pattern.from_networkx(networkx.relabel_nodes(names, {"<": "expect 3"})))
        self.assertEqual([tuple(row) for row in rows], [("[query]", "# a", '"b"', "a -x-> b", "<")])

    def test_too_many(self):
        import networkx

        with self.assertRaisesRegex(InputError, "65536 items, of 65535 at most"):
            Hang.from_networkx(networkx.empty_graph(65_536))
        kinds = networkx.DiGraph()
        kinds.add_edges_from((0, i, {"kind": f"k{i}"}) for i in range(1, 257))
        with self.assertRaisesRegex(InputError, "more than 255 kinds of connections"):
            Hang.from_networkx(kinds)
        with self.assertRaisesRegex(InputError, "more than 24 edges"):
            Pattern.from_networkx(networkx.complete_graph(6))


class DamagedTexts(unittest.TestCase):
    def test_random_damage(self):
        """Texts with bytes dropped, doubled and exchanged: a hang or an error, and a list or an error."""
        numbers, whole = random.Random(3), "\n".join(stage_rig()).encode()
        read = 0
        for _ in range(400):
            text = bytearray(whole)
            for _ in range(numbers.randrange(1, 4)):
                at = numbers.randrange(len(text))
                choice = numbers.randrange(4)
                if choice == 0:
                    del text[at : at + numbers.randrange(1, 30)]
                elif choice == 1:
                    text[at:at] = text[max(0, at - 20) : at]
                elif choice == 2:
                    text[at] = numbers.randrange(256)
                else:
                    text[at:at] = bytes(numbers.choice((b"\n", b'"', b"[", b"->", b"\0", "ä".encode(), b"#")))
            with warnings.catch_warnings():
                warnings.simplefilter("ignore")
                try:
                    hang = Hang.from_text(bytes(text))
                    for pattern in hang.patterns.values():
                        list(hang.find(pattern))
                    read += 1
                except (InputError, Refused):
                    pass
        self.assertGreater(read, 20)


if __name__ == "__main__":
    unittest.main()
