"""Every example's list equals its expected.txt, in the browser, and the tables of the stage rig give the lists of its text."""

import re
import unittest

from harness import EXAMPLES, PageTest


def expected(name):
    """The lines of an example's expected.txt."""
    return (EXAMPLES / name / "expected.txt").read_text().splitlines()


def numbers(lines):
    return [[int(word) for word in line.split()] for line in lines]


class Examples(PageTest):
    def setUp(self):
        self.examples = {example["name"]: example["text"] for example in self.browser.call("examples")}

    def items(self, text):
        """The number of each item's name."""
        hang = self.browser.call("read", sources=[{"name": "hang.txt", "text": text}])["hang"]
        return {item["name"]: number for number, item in enumerate(hang["items"])}

    def test_all_examples_are_inside(self):
        folders = {path.parent.name for path in EXAMPLES.glob("*/hang.txt")}
        self.assertEqual(set(self.examples), folders)
        self.assertGreaterEqual(len(folders), 9)
        self.assertEqual(next(iter(self.examples)), "stage-rig")
        for name in folders - {"stage-rig"}:
            self.assertEqual(self.examples[name], (EXAMPLES / name / "hang.txt").read_text())

    def test_every_list_equals_expected(self):
        compared = 0
        for path in sorted(EXAMPLES.glob("*/expected.txt")):
            name = path.parent.name
            lines = expected(name)
            head = re.fullmatch(r"matches (\d+) cost (\d+) build (\d+) probe (\d+)", lines[0])
            if not head:
                continue
            text = self.examples[name]
            found = self.browser.find(text, plan="given" if "[plan]" in text.split("# Without")[0] else "drawn")
            items = self.items(text)
            self.assertEqual([[items[item] for item in row] for row in found["rows"]], numbers(lines[1:]), name)
            self.assertEqual([found[key] for key in ("places", "cost", "build", "probe")], [int(n) for n in head.groups()], name)
            drawn = self.browser.find(text, plan="drawn")
            self.assertEqual(sorted(drawn["rows"]), sorted(found["rows"]), name)
            compared += 1
        self.assertEqual(compared, 7)

    def test_the_refused_plan(self):
        refused = expected("refused-join")[0].split()[1]
        answer = self.browser.find(self.examples["refused-join"])
        self.assertIn(f"with {refused}", answer["refused"])
        self.assertNotIn("rows", answer)

    def test_before_and_after_the_swap(self):
        before, rows, after, rows_after = expected("truss-swap")
        text = self.examples["truss-swap"]
        items = self.items(text)
        by_number = lambda rows: [[items[item] for item in row] for row in rows]
        sources = [{"name": "hang.txt", "text": text}]
        found = self.browser.find(text, plan="drawn")
        self.assertEqual(before, f"before edges 17 matches {found['places']} cost {found['cost']}")
        self.assertEqual(by_number(found["rows"]), numbers([rows]))
        diff = self.browser.call("diff", sources=sources, plan="drawn")
        self.assertTrue(after.startswith(f"after edges 16 matches {diff['after']} "))
        self.assertEqual(by_number(diff["gone"]), numbers([rows]))
        self.assertEqual(by_number(diff["new"]), numbers([rows_after]))
        self.assertEqual(diff["kept"], 0)

    def test_tables_give_the_lists_of_the_text(self):
        folder = EXAMPLES / "stage-rig"
        tables = [{"name": name, "text": (folder / name).read_text()} for name in ("items.csv", "connections.csv", "rules.txt")]
        from_tables = self.browser.find_all([(tables, {"plan": "drawn"})])[0]
        from_text = self.browser.find(self.examples["stage-rig"], plan="drawn")
        lists = lambda answer: [(found["pattern"], found["rows"]) for found in answer["patterns"]]
        self.assertEqual(lists(from_tables), lists(from_text))
        self.assertEqual([found["places"] for found in from_text["patterns"]], [1, 3, 8])


if __name__ == "__main__":
    unittest.main()
