"""Each call of the engine against the native program: lists as CSV, sheets with their key, rules, changes, work, text; and patterns there and back."""

import csv
import io
import json
import random
import unittest

from hangs import Hang
from harness import EXAMPLES, PageTest, program

RIG = EXAMPLES / "stage-rig"
MEMORY = 2_000_000_000


def rig():
    return [{"name": name, "text": (RIG / name).read_text()} for name in ("hang.txt", "rules.txt")]


PATHS = [RIG / "hang.txt", RIG / "rules.txt"]


class Calls(PageTest):
    def test_csv(self):
        for once in (False, True):
            words = ["--once"] if once else []
            printed = program("find", *PATHS, "--pattern", "over-people", "--csv", *words)[1]
            answer = self.browser.call("csv", sources=rig(), pattern="over-people", once=once)
            # The program's output is read with its line ends made one.
            self.assertEqual(answer["text"].replace("\r\n", "\n"), printed)
            self.assertEqual(len(list(csv.reader(io.StringIO(answer["text"])))), answer["places"] + 1)
            self.assertEqual(answer["text"].count("\r\n"), 9)

    def test_sheets_and_key(self):
        printed = program("find", *PATHS, "--pattern", "over-people", "--sheet", "--key")[1]
        answer = self.browser.call("sheets", sources=rig(), pattern="over-people")
        self.assertEqual("".join(answer["pages"]) + answer["key"], printed)

    def test_sheets_of_several_pages(self):
        items = 30
        lines = ["[graph]", f"vertices {items}", *(f"{a} -1-> {b}" for a in range(items) for b in range(10) if a != b)]
        text = "\n".join([*lines, "[query]", "vertices 2", "0 -1-> 1", ""])
        printed = program("find", "-", "--sheet", "--plan", "drawn", text=text)[1]
        answer = self.browser.call("sheets", sources=[{"name": "x", "text": text}], plan="drawn")
        self.assertEqual(len(answer["pages"]), 5)
        self.assertEqual("".join(answer["pages"]), printed)
        for page in answer["pages"]:
            self.assertEqual([len(line) for line in page.splitlines()], [80] * 60)

    def test_check(self):
        printed = json.loads(program("check", *PATHS, "--json")[1])
        answer = self.browser.call("check", sources=rig())
        self.assertEqual(answer["ok"], printed["ok"])
        renamed = [{**{key: rule[key] for key in rule if key != "holds"}, "ok": rule["holds"]} for rule in answer["rules"]]
        self.assertEqual(renamed, printed["patterns"])
        self.assertEqual([rule["holds"] for rule in answer["rules"]], [False, True, True])
        self.assertEqual(answer["without"], [])

    def test_diff(self):
        changed = 0
        for told in json.loads(program("diff", PATHS[0], "--patterns", PATHS[1], "--json")[1])["patterns"]:
            answer = self.browser.call("diff", sources=rig(), pattern=told["pattern"])
            for key in ("vertices", "gone", "new"):
                self.assertEqual(answer[key], told[key])
            self.assertEqual(answer["keptRows"], told["kept"])
            self.assertEqual(answer["kept"], len(told["kept"]))
            changed += len(told["gone"]) + len(told["new"])
        self.assertGreater(changed, 0)
        without = [{"name": "x", "text": rig()[0]["text"].split("[changes]")[0] + rig()[1]["text"]}]
        self.assertIn("no [changes]", self.browser.call("diff", sources=without, pattern="two-lapsed")["no"]["words"])

    def test_explain(self):
        for plan in ("best", "drawn"):
            words = [] if plan == "best" else ["--plan", plan]
            printed = program("explain", *PATHS, "--pattern", "over-people", "--memory", MEMORY, *words)[1]
            answer = self.browser.call("explain", sources=rig(), pattern="over-people", plan=plan, memory=MEMORY)
            self.assertEqual(answer["text"], printed)
            self.assertEqual(answer["planFrom"], "picked" if plan == "best" else "drawn")
            self.assertEqual(sum(record["cost"] for record in answer["records"]), answer["cost"])
            self.assertEqual(len(answer["steps"]), len(answer["plan"]))
            self.assertIn(answer["tree"], printed)
            self.assertEqual(len(answer["others"]), 1)
            self.assertIs(answer["suffices"], True)
            took = {limit["what"]: limit["took"] for limit in answer["limits"]}
            width = len(self.browser.call("csv", sources=rig(), pattern="over-people")["text"].splitlines()[0].split(","))
            self.assertEqual((took["words of list"], took["cost"]), (width * answer["places"], answer["cost"]))
            self.assertEqual(took["rows of an operator"], max(record["rows"] for record in answer["records"]))
            for limit in answer["limits"]:
                self.assertRegex(printed, rf"(?m)^{limit['what']} +{limit['bound']} +{limit['took']}$")
                self.assertTrue(0 <= limit["took"] <= limit["bound"], limit)

    def test_bounds_past_64_bits(self):
        """Joins of joins, whose bounds multiply. No connection goes on from where another ends, so that nothing is listed."""
        lines = ["[graph]", "vertices 60", *(f"{a} -1-> {b}" for a in range(30) for b in range(30, 60))]
        lines += ["[query]", "vertices 8", *(f"{v} -1-> {v + 1}" for v in range(7)), "[plan]", "scan 0", *(word for v in range(1, 7) for word in (f"scan {v}", "join")), ""]
        text = "\n".join(lines)
        printed = program("explain", "-", "--memory", MEMORY, text=text)[1]
        answer = self.browser.call("explain", sources=[{"name": "x", "text": text}], memory=MEMORY)
        self.assertEqual(answer["text"], printed)
        self.assertRegex(printed, r"(?m)^words of list +past 64 bits +0$")
        bounds = {limit["what"]: limit["bound"] for limit in answer["limits"]}
        self.assertEqual((bounds["words of list"], bounds["rows of an operator"], bounds["cost"]), (None, None, 0))
        self.assertIs(answer["suffices"], False)

    def test_orderings(self):
        compared = 0
        for path in sorted(EXAMPLES.glob("*/hang.txt")):
            text = path.read_text() + (path.parent / "rules.txt").read_text() if (path.parent / "rules.txt").exists() else path.read_text()
            sources = [{"name": "hang.txt", "text": text}]
            for pattern in self.browser.call("read", sources=sources)["patterns"]:
                asked = {"sources": sources, "pattern": pattern["title"], "memory": MEMORY}
                answer = self.browser.call("orderings", **asked)
                status, printed, _ = program("explain", "-", "--orderings", "-p", pattern["title"], "--plan", "drawn", "--memory", MEMORY, text=text)
                self.assertEqual(status, 0)
                lines = printed[printed.index(" of one scan and extends") :].split("\n\n")[1].splitlines()
                words = lambda o: f"{', '.join(o['plan'])}{'  (' + ', '.join(o['marks']) + ')' if o['marks'] else ''}"
                told = [(int(line.split()[0]), line[line.index("scan ") :]) for line in lines]
                self.assertEqual([(o["cost"], words(o)) for o in answer["orderings"]], told, path)
                for ordering in answer["orderings"]:
                    self.assertEqual(sorted(ordering["vertices"]), sorted(v["name"] or str(i) for i, v in enumerate(pattern["vertices"])))
                least = min(ordering["cost"] for ordering in answer["orderings"])
                [cheapest] = [ordering for ordering in answer["orderings"] if "cheapest" in ordering["marks"]]
                self.assertEqual(cheapest["cost"], least)
                found = self.browser.find([{"name": "hang.txt", "text": text}], patterns=[pattern["title"]], plan="cheapest", memory=MEMORY)
                self.assertEqual((found["cost"], found["planFrom"], found["plan"]), (least, "cheapest", cheapest["plan"]))
                compared += 1
        self.assertGreaterEqual(compared, 8)

    def test_no_orderings_of_six_items(self):
        text = "\n".join(["[graph]", "vertices 6", *(f"{v} -1-> {v + 1}" for v in range(5)), "[query]", "vertices 6", *(f"{v} -1-> {v + 1}" for v in range(5)), ""])
        answer = self.browser.call("orderings", sources=[{"name": "x", "text": text}])
        self.assertEqual((answer["orderings"], answer["why"]), ([], "all orderings are compared for patterns of at most 5 items, and this one has 6"))
        printed = program("explain", "-", "--orderings", text=text)[1]
        self.assertTrue(printed.endswith(f"\nNo orderings: {answer['why']}.\n"), printed)
        self.assertIn("with 31", self.browser.find(text, plan="cheapest")["refused"])

    def test_text_of_tables(self):
        tables = [RIG / "items.csv", RIG / "connections.csv"]
        printed = program("import", *tables)[1]
        sources = [{"name": path.name, "text": path.read_text()} for path in tables]
        self.assertEqual(self.browser.call("text_of", sources=sources)["text"], printed)

    def test_read(self):
        answer = self.browser.call("read", sources=rig())
        items = answer["hang"]["items"]
        self.assertEqual(items[3], {"name": "motor-2", "kind": "motor", "day": "2025-08-11"})
        flat = answer["hang"]["connections"]
        kinds = answer["kinds"]["connections"]
        written = [f"{items[a]['name']} -{kinds[k]}-> {items[b]['name']}" for a, b, k in zip(*[iter(flat)] * 3)]
        self.assertIn("front-truss -safety wire-> lamp-1", written)
        self.assertEqual(len(written), answer["summary"]["connections"])
        self.assertEqual(len(answer["changes"]), 14)
        added = [change for change in answer["changes"] if change["adds"] and change["kind"] == "safety wire"]
        self.assertEqual([(items[c["from"]]["name"], items[c["to"]]["name"]) for c in added], [("long-truss", "lamp-1")])
        lapsed = answer["patterns"][0]
        lines = rig()[1]["text"].splitlines()
        self.assertEqual((lapsed["source"], lines[lapsed["firstLine"] - 1][:18]), (1, "[query two-lapsed]"))
        self.assertTrue(lines[lapsed["lastLine"] - 1].startswith("left < right"))
        self.assertEqual(lapsed["vertices"][1], {"name": "left", "kind": "motor", "days": {"first": None, "last": "2025-11-15"}})
        notes = self.browser.call("read", sources=[{"name": "items.csv", "text": (RIG / "items.csv").read_text()}])
        self.assertTrue(any(item.get("notes") for item in notes["hang"]["items"]))

    def test_patterns_there_and_back(self):
        numbers = random.Random(11)
        compared = 0
        for _ in range(60):
            text = Hang(numbers).text()
            read = self.browser.call("read", sources=[{"name": "x", "text": text}])
            for pattern in read["patterns"]:
                written = self.browser.call("write_pattern", pattern=pattern, kinds=read["kinds"])
                self.assertEqual(written["errors"], [], text)
                same = lambda p: {key: p[key] for key in p if key not in ("source", "firstLine", "lastLine", "fault", "planFault")}
                self.assertEqual(same(written["pattern"]), same(pattern), text)
                again = self.browser.call("pattern", text=written["text"], kinds=read["kinds"])
                self.assertEqual(again["pattern"], written["pattern"])
                lines = written["text"].splitlines()
                self.assertTrue(all(" < " in lines[number - 1] for number in written["lines"]["pairs"]))
                self.assertTrue(all("->" in lines[number - 1] for number in written["lines"]["edges"]))
                compared += 1
        self.assertGreater(compared, 60)

    def test_a_pattern_with_faults(self):
        kinds = {"items": ["motor", "label", "a kind"], "connections": ["any", "carries"]}
        drawn = {
            "name": "a ] name", "sentence": "two\nlines", "expect": {"is": "at most", "count": 2}, "plan": None, "pairs": [],
            "vertices": [{"name": "a", "kind": "label", "days": None}, {"name": "12", "kind": "a kind", "days": {"first": "2026-01-01", "last": None}},
                         {"name": "any", "kind": None, "days": None}],
            "edges": [{"from": 0, "to": 1, "kind": "any"}, {"from": 1, "to": 2, "kind": None}],
        }
        answer = self.browser.call("write_pattern", pattern=drawn, kinds=kinds)
        self.assertEqual(answer["errors"], [])
        for key in ("name", "expect", "vertices", "edges", "pairs"):
            self.assertEqual(answer["pattern"][key], drawn[key])
        self.assertEqual(answer["pattern"]["sentence"], "two lines")
        drawn["vertices"][0]["kind"] = "mtor"
        answer = self.browser.call("write_pattern", pattern=drawn, kinds=kinds)
        self.assertEqual([(fault["line"], fault["help"]) for fault in answer["errors"]], [(answer["lines"]["vertices"][0], "did you mean 'motor'?")])
        self.assertIsNone(answer["pattern"])
        drawn["vertices"][0]["kind"] = None
        drawn["edges"].pop()
        apart = self.browser.call("write_pattern", pattern=drawn, kinds=kinds)["pattern"]
        self.assertIn("not connected", apart["fault"]["reason"])
        self.assertEqual(self.browser.call("pattern", text="")["errorCount"], 1)
        anything = self.browser.call("pattern", text="[query]\na: motor\nb: \"x y\"\na -carries-> b\n")
        self.assertEqual([vertex["kind"] for vertex in anything["pattern"]["vertices"]], ["motor", "x y"])

    def test_long_lists_come_by_numbers(self):
        count = 330
        lines = ["[graph]", *(f"vertex i{a}" for a in range(count)), *(f"i{a} -1-> i{b}" for a in range(count) for b in range(count) if a != b)]
        text = "\n".join([*lines, "[query]", "vertices 2", "0 -1-> 1", ""])
        found = self.browser.js(
            """
            const sources = [{ name: "x", text: args[0] }];
            const [found] = (await rizhavaan.engine.call("find", { sources })).patterns;
            const counted = (await rizhavaan.engine.call("find", { sources, countOnly: true })).patterns[0];
            const all = await rizhavaan.find(args[0]);
            const last = found.rowsFlat.subarray(-2);
            return { keys: Object.keys(found), length: found.rowsFlat.length, width: found.width, last: [...last],
                     named: all.rows.length, lastNamed: all.rows.at(-1), allKeys: Object.keys(all), counted: Object.keys(counted) };""",
            text,
        )
        places = count * (count - 1)
        self.assertGreater(places, 100_000)
        self.assertEqual((found["length"], found["width"], found["named"]), (2 * places, 2, places))
        self.assertNotIn("rows", found["keys"])
        self.assertEqual(found["lastNamed"], [f"i{n}" for n in found["last"]])
        self.assertEqual(sorted(found["allKeys"]), sorted(json.loads(program("find", "-", "--json", text=text)[1])))
        self.assertFalse({"rows", "rowsFlat"} & set(found["counted"]))

    def test_quote(self):
        names = ["motor", "motor 4 (spare)", 'a "b"', "label", "12", "2026-01-01", "-x", "a->b", "x:", "[y", "#", "<", "expect", "Träger"]
        lines = ["[graph]"] + [f"vertex {self.quoted(name)}" for name in names]
        answer = self.browser.call("read", sources=[{"name": "x", "text": "\n".join(lines) + "\n"}])
        self.assertEqual(answer["errors"], [])
        self.assertEqual([item["name"] for item in answer["hang"]["items"]], names)
        names = [name for name in names if not name[0].isdigit()]
        kinds = ["[kinds]"] + [f"item {self.quoted(name)}" for name in names] + ["[graph]"] + [f"i{i}: {self.quoted(name)}" for i, name in enumerate(names)]
        answer = self.browser.call("read", sources=[{"name": "x", "text": "\n".join(kinds) + "\n"}])
        self.assertEqual(answer["errors"], [])
        self.assertEqual([item["kind"] for item in answer["hang"]["items"]], names)

    def quoted(self, name):
        return self.browser.js("return rizhavaan.quote(args[0]);", name)


if __name__ == "__main__":
    unittest.main()
