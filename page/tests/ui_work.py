"""Where the work went: the plan, rows and lookups as bars, other plans, bounds, and all orderings as a plot."""

import math
import re
import unittest

from selenium.webdriver.common.keys import Keys

from harness import EXAMPLES, program
from ui_page import PHONE, PageTest

# A pattern of six items in a row.
SIX = "\n".join(["[graph]", "vertices 6", *(f"{v} -1-> {v + 1}" for v in range(5)), "[query six]", "vertices 6", *(f"{v} -1-> {v + 1}" for v in range(5)), ""])

# A dense hang whose list is one place, by the plan of the text; other orderings of the pattern take minutes.
LONG = "\n".join(
    ["[graph]", "vertices 500", "vertex end label 2", *(f"{a} -1-> {b}" for a in range(500) for b in range(500) if a != b and (a * 7 + b * 3) % 2 == 1)]
    + ["0 -2-> end", "[query long]", "vertices 4", "vertex last label 2", "0 -1-> 1", "1 -1-> 2", "2 -1-> 3", "3 -1-> 0", "0 -2-> last", "1 -2-> last"]
    + ["[plan]", "scan 0 -2-> last", "extend 1", "extend 2", "extend 3", ""]
)


class Work:
    def start(self, name="bowtie-bushy-join", places=4):
        self.page.example(name)
        self.page.until_places(places)
        self.page.tab("work")
        self.page.until(lambda: self.page.all("#work .records tbody tr"), "the records")

    def records(self):
        script = "return [...document.querySelectorAll('#work .records tbody tr')].map((r) => [r.querySelector('th').textContent, ...[...r.querySelectorAll('.measure .number')].map((n) => Number(n.textContent))])"
        return self.page.look(script)

    def test_records_as_bars(self):
        self.start()
        expected = [["scan a -1-> b", 7, 0], ["extend knot", 3, 24], ["scan knot -2-> c", 5, 0], ["extend d", 2, 14], ["join", 4, 0]]
        self.assertEqual(self.records(), expected)
        widths = self.page.look("return [...document.querySelectorAll('#work .bar.cost')].map((n) => n.getBoundingClientRect().width)")
        self.assertGreater(widths[1], 20)
        self.assertAlmostEqual(widths[3] / widths[1], 14 / 24, delta=0.03)
        self.assertEqual(widths[0], 0)
        self.assertIn("4 places by the plan of the text, 38 lookups.", self.page.text("#work-words"))
        self.assertIn("put the last two results together where they agree in knot", self.page.text("#work .steps"))
        self.assertTrue(self.page.text("#work .tree").startswith("join"))

    def test_bounds_beside_what_came(self):
        self.start()
        script = "return [...document.querySelectorAll('#work .limits tr')].map((r) => [...r.children].map((c) => c.textContent))"
        self.assertEqual(
            self.page.look(script),
            [
                ["Any run of this plan", "At most", "This run"],
                ["Words of list", "2,100", "20"],
                ["Words of scratch", "157", "27"],
                ["Cost", "86", "38"],
                ["Rows of an operator", "420", "7"],
            ],
        )
        self.assertIn("no run of this plan is refused for want of them", self.page.text("#work-words"))

    # All orderings.

    def until_orderings(self, n):
        self.page.until(lambda: len(self.page.all("#spectrum .dot")) == n and self.page.is_seen("#orderings-plot"), f"{n} orderings")

    def chosen(self):
        return self.page.look("return document.querySelector('#orderings-list [aria-selected=true]')?.getAttribute('aria-posinset') ?? null")

    def test_every_ordering_is_a_dot(self):
        self.start()
        self.until_orderings(28)
        printed = program("explain", EXAMPLES / "bowtie-bushy-join", "--orderings")[1]
        costs = sorted(int(cost) for cost in re.findall(r"(?m)^ *(\d+) #+ +scan", printed))
        self.assertEqual(len(costs), 28)
        self.assertEqual((costs[0], costs[-1]), (36, 67))
        # From left to right as the logarithms of the costs.
        x = self.page.look("return [...document.querySelectorAll('#spectrum .dot')].sort((a, b) => a.dataset.dot - b.dataset.dot).map((d) => Number(d.getAttribute('cx')))")
        scale = (x[-1] - x[0]) / math.log(costs[-1] / costs[0])
        self.assertGreater(scale, 50)
        for cost, at in zip(costs, x):
            self.assertAlmostEqual(at, x[0] + scale * math.log(cost / costs[0]), delta=0.6)
        self.assertEqual(sorted(self.page.texts("#spectrum .mark")), ["cheapest 36", "drawn 49", "picked 39"])
        words = self.page.text("#orderings-all")
        self.assertEqual(words, "28 orderings, from 36 to 67 lookups. The picked one costs 39, the drawn one 49. The given plan has a join and is none of them.")
        self.assertIn(words, self.page.look("return document.getElementById('spectrum').getAttribute('aria-label')"))
        ticks = [int(text) for text in self.page.texts("#spectrum .tick")]
        self.assertEqual(ticks, [20, 50, 100])

    def test_a_dot_is_tapped(self):
        self.start()
        self.until_orderings(28)
        self.assertEqual(self.page.text("#ordering-words")[:20], "1 of 28, cheapest: a")
        self.page.tap("#spectrum [data-dot='27']")
        self.page.until(lambda: self.chosen() == "28", "the dearest is chosen")
        words = self.page.text("#ordering-words")
        self.assertRegex(words, r"^28 of 28: (a|b|c|d|knot)( → (a|b|c|d|knot)){4}, 67 lookups; 1\.9 times the cheapest\.$")
        self.assertEqual(self.page.look("return document.querySelector('#spectrum .dot.chosen').dataset.dot"), "27")
        # And a row of the list.
        row = self.page.look("return document.querySelector('#orderings-list [aria-posinset=\"27\"]')")
        self.page.tap(row)
        self.page.until(lambda: self.page.text("#ordering-words").startswith("27 of 28"), "the row is chosen")
        marks = self.page.look("return document.querySelector('#spectrum .dot.chosen').dataset.dot")
        self.assertEqual(marks, "26")

    def test_marks_of_one_ordering(self):
        self.start("triangle", 2)
        self.until_orderings(3)
        [marks] = [mark for mark in self.page.texts("#spectrum .mark") if "cheapest" in mark]
        self.assertIn("drawn", marks)
        self.assertTrue(self.page.text("#orderings-all").startswith("3 orderings, from 13 to 18 lookups."))

    def test_no_plot_of_six_items(self):
        self.page.open()
        self.page.bring(self.page.temporary("six.txt", SIX))
        self.page.until_places(1)
        self.page.tab("work")
        self.page.until(lambda: self.page.text("#orderings-words") == "All orderings are compared for patterns of at most 5 items, and this one has 6.", "why there is none")
        self.assertFalse(self.page.is_seen("#orderings-plot"))

    def test_the_cheapest_ordering_is_run(self):
        self.start()
        self.page.choose("#plan", "the cheapest ordering")
        self.page.until(lambda: "4 places by the cheapest ordering, 36 lookups." in self.page.text("#work-words"), "the cheapest")
        self.until_orderings(28)

    def test_another_plan(self):
        self.start()
        self.page.choose("#plan", "drawn by the engine")
        self.page.until(lambda: "by a drawn plan" in self.page.text("#work-words"), "the drawn plan")
        self.assertNotIn("join", [record[0] for record in self.records()])
        self.page.tab("places")
        self.page.until_places(4)


class WorkWide(Work, PageTest):
    def test_orderings_by_keyboard_alone(self):
        self.start()
        self.until_orderings(28)
        self.page.tab_to("#orderings-list")
        self.page.keys(Keys.ARROW_DOWN, Keys.ARROW_DOWN)
        self.page.until(lambda: self.page.text("#ordering-words").startswith("3 of 28"), "the third")
        self.page.keys(Keys.END)
        self.page.until(lambda: self.page.text("#ordering-words").startswith("28 of 28"), "the last")
        self.assertEqual(self.page.look("return document.activeElement.getAttribute('aria-activedescendant')"), "orderings-list-27")
        self.page.keys(Keys.HOME)
        self.page.until(lambda: self.page.text("#ordering-words").startswith("1 of 28, cheapest"), "the first")

    def test_a_long_comparison_is_cancelled(self):
        self.page.open()
        self.page.bring(self.page.temporary("long.txt", LONG))
        self.page.until_places(0)
        self.page.tab("work")
        self.page.until(lambda: self.page.is_seen("#orderings-cancel") and self.page.text("#orderings-time"), "the time so far")
        self.page.until(lambda: self.page.all("#work .records tbody tr"), "the plan that ran is told meanwhile")
        self.assertTrue(self.page.is_seen("#orderings-cancel"))
        self.page.tap("#orderings-cancel")
        self.page.until(lambda: "not all orderings were run" in self.page.text("#orderings-words"), "it was cancelled")
        self.assertFalse(self.page.is_seen("#orderings-plot"))
        self.page.tap("#orderings-again")
        self.page.until(lambda: self.page.is_seen("#orderings-cancel"), "it runs again")
        self.page.choose("#plan", "drawn by the engine")
        self.page.tab("places")
        self.page.until_places(0)

    def test_a_plan_that_is_refused(self):
        self.page.example("refused-join")
        self.page.until(lambda: self.page.text("#places-title") == "No list", "no list")
        self.assertIn("lies within neither result", self.page.text("#places-words"))
        self.page.tap("#places-words button")
        self.page.until_places(1)
        self.assertEqual(self.page.value("#plan"), "picked")

    def test_by_keyboard_alone(self):
        self.page.example()
        self.page.until_places(1)
        self.page.tab_to("#tab-places")
        self.page.keys(Keys.ARROW_LEFT)
        self.page.until(lambda: self.page.all("#work .records tbody tr"), "the records")
        self.assertEqual(self.records()[-1][1], 1)


class WorkOnAPhone(Work, PageTest):
    size = PHONE


if __name__ == "__main__":
    unittest.main()
