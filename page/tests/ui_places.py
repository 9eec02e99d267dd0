"""The places: counted above and below, filtered, sorted, shown in the picture; empty, long, cancelled."""

import unittest

from selenium.webdriver.common.keys import Keys

from ui_page import PHONE, PageTest

WIRED = "wired-lamps"


def grid(n, pattern="[query every]\na: motor\nb: truss\na -carries-> b\n"):
    """n motors, n trusses, and every connection between them."""
    items = [f"m{i}: motor" for i in range(n)] + [f"t{i}: truss" for i in range(n)]
    lines = [f"m{i} -carries-> t{j}" for i in range(n) for j in range(n)]
    return "[graph]\n" + "\n".join(items + lines) + "\n" + pattern


class Places:
    def choose_pattern(self, name):
        if self.size == PHONE:
            self.page.tab("pattern")
        self.page.choose("#pattern-choice", name)
        self.page.tab("places")

    def test_the_example_within_a_moment(self):
        self.page.example()
        self.page.until_places(1)
        self.assertEqual(self.page.rows(), [["front-truss", "motor-2", "motor-3"]])
        self.assertEqual(self.page.text("#places-all"), "1 place, all of them.")
        self.page.until(lambda: self.page.marked() == ["front-truss", "motor-2", "motor-3"], "the place is marked")
        self.page.until(lambda: len(self.page.all("#rig-content .line.marked")) == 2, "its connections are marked")
        self.assertEqual(self.page.text("#rig-small"), "place 1 of 1 marked")

    def test_a_tap_shows_the_place(self):
        self.page.example()
        self.page.until_places(1)
        self.choose_pattern(WIRED)
        self.page.until_places(3)
        self.page.until(lambda: self.page.marked() == ["front-truss", "lamp-1"], "the first is marked")
        self.page.tap("#list [data-row='2']")
        self.page.until(lambda: self.page.marked() == ["back-truss", "lamp-3"], "the third is marked")
        self.assertEqual(self.page.text("#step-words"), "3 of 3")
        self.page.tap("#previous")
        self.page.until(lambda: self.page.marked() == ["front-truss", "lamp-2"], "the one before is marked")
        self.page.tap("#next")
        self.page.until(lambda: self.page.marked() == ["back-truss", "lamp-3"], "the next is marked")
        tinted = set(self.page.texts("#rig-content .item.tinted text"))
        self.assertEqual(tinted, {"front-truss", "back-truss", "lamp-1", "lamp-2", "lamp-3"})

    def test_filter_and_sort(self):
        self.page.example()
        self.page.until_places(1)
        self.choose_pattern("over-people")
        self.page.until_places(8)
        self.page.node("#filter").send_keys("lamp-1 motor-2")
        self.page.until(lambda: self.page.rows() == [["beam-north", "motor-2", "front-truss", "lamp-1"]], "one row is left")
        self.assertEqual(self.page.text("#places-title"), "8 places")
        self.assertEqual(self.page.text("#places-all"), "1 of 8 places shown. 8 places, all of them.")
        self.page.node("#filter").send_keys(Keys.CONTROL, "a", Keys.DELETE)
        self.page.until(lambda: len(self.page.rows()) > 3 and self.page.text("#places-all") == "8 places, all of them.", "all rows are back")
        self.page.tap("#columns button:nth-of-type(2)")
        upwards = ["motor 4 (spare)", "motor-1", "motor-1", "motor-2", "motor-2", "motor-3", "motor-3", "motor-5"]
        motors = [row[1] for row in self.page.rows()]
        self.assertEqual(motors, upwards[: len(motors)])
        self.page.tap("#columns button:nth-of-type(2)")
        motors = [row[1] for row in self.page.rows()]
        self.assertEqual(motors, upwards[::-1][: len(motors)])
        self.page.tap("#columns button:nth-of-type(2)")
        self.assertEqual(self.page.text("#columns button:nth-of-type(2)"), "motor")

    def test_an_empty_list_says_why(self):
        text = "[graph]\na: truss\nb: motor day 2026-01-01\nb -carries-> a\n[query old]\nt: truss\nm: motor inspected 2000-01-02..2025-12-31\nm -carries-> t\n"
        self.page.open()
        self.page.bring(self.page.temporary("empty.txt", text))
        self.page.until(lambda: self.page.text("#places-title") == "0 places", "no place")
        self.assertEqual(self.page.text("#places-all"), "0 places, all of them.")
        self.assertIn("No item fits m: of 1 of kind motor none was inspected", self.page.text("#places-words"))
        self.page.tab("pattern")
        self.page.until(lambda: self.page.texts("#pattern-content .faulty .name") == ["m"], "marked in the drawing")
        self.page.write("#pattern-text", "[query other]\nt: truss\nm: motor\nt -carries-> m\n")
        self.page.until(lambda: len(self.page.all("#pattern-content .edge.faulty")) == 1, "the connection is marked")
        self.assertEqual(self.page.texts("#pattern-content .vertex.faulty .name"), [])
        self.page.tab("places")
        self.page.until(lambda: "No two items that fit have t -carries-> m" in self.page.text("#places-words"), "and said")


class PlacesWide(Places, PageTest):
    def test_by_keyboard_alone(self):
        self.page.example()
        self.page.until_places(1)
        self.choose_pattern("over-people")
        self.page.until_places(8)
        self.page.tab_to("#list")
        first = self.page.marked()
        self.page.keys(Keys.ARROW_DOWN)
        self.page.until(lambda: self.page.marked() != first, "the next is marked")
        self.assertEqual(self.page.text("#step-words"), "2 of 8")
        self.page.keys(Keys.END)
        self.page.until(lambda: self.page.text("#step-words") == "8 of 8", "the last")
        self.page.keys(Keys.ARROW_UP, Keys.HOME)
        self.page.until(lambda: self.page.text("#step-words") == "1 of 8", "the first")
        active = self.page.look("return document.activeElement.getAttribute('aria-activedescendant')")
        self.assertEqual(active, "list-0")

    def test_a_long_list_scrolls(self):
        n = 320
        self.page.open()
        self.page.bring(self.page.temporary("long.txt", grid(n)))
        self.page.until_places(n * n)
        self.assertEqual(self.page.text("#places-all"), f"{n * n:,} places, all of them.")
        self.assertLess(len(self.page.all("#list .row")), 60)
        self.assertEqual(self.page.rows()[0], ["m0", "t0"])
        self.page.node("#list").click()
        self.page.keys(Keys.END)
        self.page.until(lambda: self.page.rows()[-1] == [f"m{n - 1}", f"t{n - 1}"], "the last row")
        self.assertLess(len(self.page.all("#list .row")), 60)
        self.page.look("const list = document.getElementById('list'); list.scrollTop = list.scrollHeight / 2")
        self.page.until(lambda: self.page.rows()[0][0] in ("m158", "m159", "m160"), "the middle")
        self.page.node("#filter").send_keys("m7 t9")
        self.page.until(lambda: ["m7", "t9"] in self.page.rows() and "of 102,400" in self.page.text("#places-all"), "filtered")
        self.assertIn("of 640 items, around the place", self.page.text("#rig-small"))
        self.assertLessEqual(len(self.page.all("#rig-content .item")), 60)

    def test_a_list_longer_than_a_document_can_be_high(self):
        n = 480
        self.page.open()
        self.page.bring(self.page.temporary("longer.txt", grid(n)))
        self.page.until_places(n * n)
        self.page.node("#list").click()
        self.page.keys(Keys.END)
        self.page.until(lambda: self.page.rows()[-1] == [f"m{n - 1}", f"t{n - 1}"], "the last row")
        self.assertLessEqual(self.page.look("return document.getElementById('list').scrollHeight"), 8_000_000)
        self.page.keys(Keys.ARROW_UP)
        self.page.until(lambda: self.page.text("#step-words") == f"{n * n - 1:,} of {n * n:,}", "the one before")
        self.page.look("const list = document.getElementById('list'); list.scrollTop = (list.scrollHeight - list.clientHeight) / 2")
        self.page.until(lambda: self.page.rows()[0][0] in ("m239", "m240"), "the middle")
        self.page.keys(Keys.HOME)
        self.page.until(lambda: self.page.rows()[0] == ["m0", "t0"], "the first row")

    def test_cancelled(self):
        heavy = grid(150, "[query heavy]\n" + "".join(f"a{i}: motor\n" for i in range(4)) + "b: truss\nc: truss\n" + "".join(f"a{i} -carries-> b\na{i} -carries-> c\n" for i in range(4)))
        self.page.open()
        self.page.bring(self.page.temporary("heavy.txt", heavy))
        self.page.until(lambda: self.page.is_seen("#cancel") and self.page.text("#run-time") != "", "time so far and Cancel")
        self.assertEqual(self.page.rows(), [])
        self.page.tap("#cancel")
        self.page.until(lambda: self.page.text("#places-title") == "No list", "no list")
        self.assertIn("Cancelled after", self.page.text("#places-words"))
        self.assertIn("There is no list.", self.page.text("#places-words"))
        self.assertEqual(self.page.rows(), [])
        self.assertFalse(self.page.is_seen("#places-all"))
        self.page.write("#pattern-text", "[query light]\na: motor\nb: truss\na -carries-> b\n")
        self.page.until_places(22500)

    def test_memory_that_ends_is_said(self):
        self.page.example()
        self.page.until_places(1)
        self.page.look("window.rizhavaan.engine.call = () => Promise.reject({ words: 'memory ended: 2000 MB were in use', fault: null })")
        self.page.tap("#once")
        self.page.until(lambda: self.page.text("#places-title") == "No list", "no list")
        self.assertIn("Memory ended: 2000 MB were in use.", self.page.text("#places-words"))
        self.assertEqual(self.page.rows(), [])
        self.assertFalse(self.page.is_seen("#places-all"))

    def view(self):
        return self.page.look("return document.getElementById('rig-content').getAttribute('transform')")

    def test_the_picture_moves_and_zooms(self):
        self.page.example()
        self.page.until_places(1)
        self.page.until(lambda: self.view() is not None, "a picture")
        before = self.view()
        x, y = self.page.middle("#rig-drawing")
        self.page.drag([(x, y), (x + 40, y + 30), (x + 80, y + 60)])
        moved = self.view()
        self.assertNotEqual(before, moved)
        self.page.tap("#zoom-in")
        larger = self.view()
        self.assertGreater(float(larger.split("scale(")[1][:-1]), float(moved.split("scale(")[1][:-1]))
        self.page.tap("#zoom-all")
        self.page.until(lambda: abs(float(self.view().split("scale(")[1][:-1]) - float(before.split("scale(")[1][:-1])) < 0.01, "all is seen")
        self.page.look("document.getElementById('rig-drawing').focus()")
        self.page.keys("+")
        self.assertGreater(float(self.view().split("scale(")[1][:-1]), float(before.split("scale(")[1][:-1]))


class PlacesOnAPhone(Places, PageTest):
    size = PHONE

    def test_two_fingers_zoom(self):
        self.page.example()
        self.page.until_places(1)
        scale = lambda: float(self.page.look("return document.getElementById('rig-content').getAttribute('transform')").split("scale(")[1][:-1])
        self.page.until(lambda: scale() > 0, "a picture")
        before = scale()
        self.page.pinch("#rig-drawing", 30, 90)
        self.page.until(lambda: scale() > before * 1.5, "larger")


if __name__ == "__main__":
    unittest.main()
