"""Drawing a pattern: by pointer, by touch and by keyboard alone; the text follows the drawing and the drawing the text; undo."""

import time
import unittest

from selenium.webdriver.common.keys import Keys

from ui_page import PHONE, PageTest

DRAWN = """[query pattern-4]
motor: motor inspected ..2025-11-15
truss: truss
motor -carries-> truss
"""


class Drawing:
    def start(self):
        self.page.example()
        self.page.until_places(1)
        self.page.tab("pattern")

    def pattern_text(self):
        return self.page.value("#pattern-text")

    def until_text(self, text):
        self.page.until(lambda: self.pattern_text() == text, lambda: f"the text is {text!r}, not {self.pattern_text()!r}")

    def spot(self, dx, dy):
        x, y = self.page.middle("#pattern-drawing")
        return x + dx, y + dy

    def vertex(self, name):
        script = """for (const g of document.querySelectorAll('[data-vertex]')) if (g.querySelector('.name').textContent === arguments[0]) {
                      const b = g.querySelector('.shape').getBoundingClientRect(); return [Math.round(b.x + b.width / 2), Math.round(b.y + b.height / 2)]; }"""
        return tuple(self.page.look(script, name))

    def names(self):
        return self.page.texts("#pattern-content .vertex .name")

    def date(self, css, day):
        """A date by the field's own value, as its picker sets it."""
        script = "const n = document.querySelector(arguments[0]); n.value = arguments[1]; n.dispatchEvent(new Event('change', { bubbles: true }))"
        self.page.look(script, css, day)

    def test_drawn(self):
        self.start()
        self.page.tap("#new-pattern")
        self.page.until(lambda: self.page.is_seen("#pattern-empty"), "an empty drawing")
        self.assertEqual(self.page.text("#pattern-empty"), "Tap to add an item.")
        self.page.drag([self.spot(-40, -60)])
        self.page.until(lambda: self.names() == ["item"], "an item")
        self.page.choose("#pattern-form select[data-key='kind-Kind']", "motor")
        self.page.until(lambda: self.names() == ["motor"], "its kind")
        self.page.drag([self.spot(40, 60)])
        self.page.until(lambda: self.names() == ["motor", "motor-2"], "another item")
        self.page.choose("#pattern-form select[data-key='kind-Kind']", "truss")
        self.page.until(lambda: self.names() == ["motor", "truss"], "its kind")
        (x, y), (u, v) = self.vertex("motor"), self.vertex("truss")
        self.page.drag([(x, y), ((x + u) // 2, (y + v) // 2), (u, v)])
        self.page.until(lambda: len(self.page.all("#pattern-content .edge")) == 1, "a connection")
        self.assertEqual(self.page.text("#pattern-content .edge text"), "any")
        self.page.choose("#pattern-form select[data-key='kind-Connection']", "carries")
        self.page.until(lambda: self.page.text("#pattern-content .edge text") == "carries", "its kind")
        self.page.drag([self.vertex("motor")])
        self.page.until(lambda: self.page.is_seen("#pattern-form [data-key=last]"), "the date field")
        self.date("#pattern-form [data-key=last]", "2025-11-15")
        self.until_text(DRAWN)
        self.page.tab("places")
        self.page.until_places(3)
        self.assertEqual(self.page.rows(), [["motor-2", "front-truss"], ["motor-3", "front-truss"], ["motor 4 (spare)", "back-truss"]])

    def test_a_drag_into_the_open_adds_an_item(self):
        self.start()
        self.page.tap("#new-pattern")
        self.page.until(lambda: self.page.is_seen("#pattern-empty"), "an empty drawing")
        self.page.drag([self.spot(0, -70)])
        self.page.until(lambda: self.names() == ["item"], "an item")
        x, y = self.vertex("item")
        self.page.drag([(x, y), (x, y + 60), (x, y + 120)])
        self.until_text("[query pattern-4]\nitem: any\nitem-2: any\nitem -any-> item-2\n")

    def test_text_and_drawing_follow_each_other(self):
        self.start()
        self.page.write("#pattern-text", "[query mine]\na: truss\nb: lamp\na -clamp-> b\n")
        self.page.until(lambda: self.names() == ["a", "b"], "the drawing follows")
        self.assertEqual(self.page.texts("#pattern-content .edge text"), ["clamp"])
        self.page.drag([self.vertex("b")])
        self.page.until(lambda: self.page.is_seen("#pattern-form [data-key=name]"), "the form")
        self.page.write("#pattern-form [data-key=name]", "light")
        self.until_text("[query mine]\na: truss\nlight: lamp\na -clamp-> light\n")
        self.page.node("#pattern-text").send_keys(Keys.CONTROL, Keys.END)
        self.page.node("#pattern-text").send_keys('a -"safety wire"-> light\n')
        self.page.until(lambda: self.page.texts("#pattern-content .edge text") == ["clamp", "safety wire"], "a second connection")
        self.page.tab("places")
        self.page.until_places(3)

    def test_a_fault_is_marked_in_both(self):
        self.start()
        self.page.write("#pattern-text", "[query mine]\na: truss\nb: lamp\na -clamp-> b\n")
        self.page.until(lambda: self.names() == ["a", "b"], "the drawing follows")
        self.page.write("#pattern-text", "[query mine]\na: truss\nb: lampe\na -clamp-> b\n")
        self.page.until(lambda: self.page.texts("#pattern .numbers .error") == ["3"], "marked in the text")
        self.page.until(lambda: self.page.texts("#pattern-content .vertex.faulty .name") == ["b"], "marked in the drawing")
        self.assertIn("no kind of item 'lampe'", self.page.text("#pattern-hint"))
        self.assertIn("did you mean 'lamp'?", self.page.text("#pattern .faults"))

    def test_undo_and_redo(self):
        self.start()
        before = self.pattern_text()
        self.page.drag([self.vertex("truss")])
        self.page.until(lambda: self.page.is_seen("#pattern-form [data-key=remove]"), "the form")
        self.page.tap("#pattern-form [data-key=remove]")
        self.page.until(lambda: self.names() == ["left", "right"], "it is gone")
        self.page.until(lambda: "-carries->" not in self.pattern_text(), "in the text too")
        self.page.tap("#undo")
        self.until_text(before)
        self.page.until(lambda: self.names() == ["truss", "left", "right"], "it is back")
        self.page.tap("#redo")
        self.page.until(lambda: self.names() == ["left", "right"], "it is gone again")
        self.page.tap("#undo")
        self.until_text(before)
        self.page.tab("places")
        self.page.until_places(1)

    def test_comments_of_the_text_stay(self):
        self.start()
        self.assertIn("left < right                                # the two in one order", self.pattern_text())
        self.page.drag([self.vertex("truss")])
        self.page.until(lambda: self.page.is_seen("#pattern-form [data-key=name]"), "the form")
        self.page.node("#pattern-form [data-key=name]").send_keys("es")
        self.page.until(lambda: "left -carries-> trusses" in self.pattern_text(), "the name")
        self.assertIn("left < right                                # the two in one order", self.pattern_text())
        self.assertTrue(self.pattern_text().startswith("# The crew's book of rules"), self.pattern_text())

    def test_in_any_order(self):
        self.start()
        self.page.write("#pattern-text", "[query two]\nt: truss\na: motor\nb: motor\na -carries-> t\nb -carries-> t\n")
        self.page.tab("places")
        self.page.until_places(8)
        self.assertIn("each place stands 2 times", self.page.text("#places-hint"))
        self.page.tab("pattern")
        self.page.tap("#once")
        self.page.until(lambda: self.page.texts("#pattern-content .pair text") == ["in any order"], "drawn")
        self.page.tab("places")
        self.page.until_places(4)
        self.assertIn("a < b: these are alike, so each place is listed once.", self.page.text("#places-hint"))

    def test_a_connection_by_the_fields(self):
        self.start()
        self.page.write("#pattern-text", "[query mine]\na: truss\nb: lamp\na -clamp-> b\n")
        self.page.until(lambda: self.names() == ["a", "b"], "the drawing follows")
        self.page.tap("#add-item")
        self.page.until(lambda: len(self.names()) == 3, "an item more")
        self.page.choose("#pattern-form [data-key='connect-to']", "a")
        self.page.tap("#pattern-form [data-key='connect-down']")
        self.page.until(lambda: "item -any-> a" in self.pattern_text(), "the connection")
        self.page.tap("#pattern-form [data-key=turn]")
        self.page.until(lambda: "a -any-> item" in self.pattern_text(), "turned round")


class DrawingWide(Drawing, PageTest):
    def test_by_keyboard_alone(self):
        self.start()
        self.page.tab_to("#new-pattern")
        self.page.keys(Keys.ENTER)
        self.page.until(lambda: self.page.is_seen("#pattern-empty"), "an empty drawing")
        self.page.tab_to("#pattern-drawing")
        self.page.keys("n")
        self.page.until(lambda: self.names() == ["item"], "an item")
        self.page.keys(Keys.ENTER)
        self.page.until(lambda: self.page.look("return document.activeElement.dataset.key") == "name", "the form")
        self.page.tab_to("select[data-key='kind-Kind']")
        self.page.keys("m")
        self.page.until(lambda: self.names() == ["motor"], "a motor")
        self.page.tab_to("#add-item", back=True)
        self.page.keys(Keys.ENTER)
        self.page.until(lambda: self.names() == ["motor", "motor-2"], "another item")
        self.page.until(lambda: self.page.look("return document.activeElement.dataset.vertex") == "1", "it has the focus")
        self.page.keys(Keys.ENTER)
        self.page.tab_to("select[data-key='kind-Kind']")
        self.page.keys("t")
        self.page.until(lambda: self.names() == ["motor", "truss"], "a truss")
        self.page.tab_to("[data-vertex='0']", back=True)
        self.page.keys("c")
        self.page.tab_to("[data-vertex='1']")
        self.page.keys(Keys.ENTER)
        self.page.until(lambda: len(self.page.all("#pattern-content .edge")) == 1, "a connection")
        self.page.tab_to("[data-edge='0']", back=True)
        self.page.keys(Keys.ENTER)
        self.page.tab_to("select[data-key='kind-Connection']")
        self.page.keys("c", "l")
        self.page.until(lambda: "motor -clamp-> truss" in self.pattern_text(), "the keys go on in the field")
        time.sleep(1.2)
        self.page.keys("c", "a")
        self.until_text("[query pattern-4]\nmotor: motor\ntruss: truss\nmotor -carries-> truss\n")
        self.page.until_places(5)
        # Moving, removing and undoing by keys.
        self.page.tab_to("[data-vertex='1']", back=True)
        x, y = self.vertex("truss")
        self.page.keys(Keys.ARROW_DOWN)
        self.assertGreater(self.vertex("truss")[1], y)
        self.page.keys(Keys.DELETE)
        self.page.until(lambda: self.names() == ["motor"], "removed")
        self.page.chord(Keys.CONTROL, "z")
        self.page.until(lambda: self.names() == ["motor", "truss"], "back")
        self.page.until_places(5)

    def test_at_most_eight_items(self):
        self.start()
        self.page.tap("#new-pattern")
        self.page.until(lambda: self.page.is_seen("#pattern-empty"), "an empty drawing")
        for n in range(1, 9):
            self.page.tap("#add-item")
            self.page.until(lambda: len(self.names()) == n, f"{n} items")
        self.page.tap("#add-item")
        self.page.until(lambda: self.page.text("#say") == "A pattern has at most 8 items.", "no ninth")
        self.assertEqual(len(self.names()), 8)

    def test_moved_and_tidied(self):
        self.start()
        before = self.vertex("truss")
        self.page.tap("#move")
        self.page.drag([before, (before[0] + 30, before[1] - 20), (before[0] + 60, before[1] - 40)])
        self.page.until(lambda: self.vertex("truss") != before, "it moved")
        self.assertEqual(len(self.page.all("#pattern-content .edge")), 2)
        self.page.tap("#tidy")
        self.page.until(lambda: abs(self.vertex("truss")[0] - before[0]) < 3, "it is where it was")


class DrawingOnAPhone(Drawing, PageTest):
    size = PHONE


if __name__ == "__main__":
    unittest.main()
