"""The rules: all patterns with what is expected of them, red and green."""

import unittest

from selenium.webdriver.common.keys import Keys

from ui_page import PHONE, PageTest


class Rules:
    def start(self):
        self.page.example()
        self.page.until_places(1)
        self.page.tab("rules")
        self.page.until(lambda: self.page.text("#rules-words") == "1 of 3 rules does not hold.", lambda: self.page.text("#rules-words"))

    def outcomes(self):
        script = "return [...document.querySelectorAll('#rules-list .rule')].map((n) => [n.dataset.rule, n.classList.contains('holds'), n.classList.contains('broken')])"
        return self.page.look(script)

    def test_red_and_green(self):
        self.start()
        self.assertEqual(self.outcomes(), [["two-lapsed", False, True], ["wired-lamps", True, False], ["over-people", True, False]])
        self.assertEqual(self.page.texts("#rules-list small"), ["expected 0, 1 place: does not hold", "expected 3, 3 places: holds", "expected at least 1, 8 places: holds"])
        colours = self.page.look("return [...document.querySelectorAll('#rules-list small')].map((n) => getComputedStyle(n).color)")
        self.assertNotEqual(colours[0], colours[1])
        self.assertEqual(colours[1], colours[2])

    def test_a_rule_shows_its_places(self):
        self.start()
        self.page.tap("[data-rule=over-people]")
        self.page.until(lambda: self.page.is_seen("#places"), "the places")
        self.page.until_places(8)

    def test_what_is_expected_is_changed(self):
        self.start()
        self.page.tab("pattern")
        self.page.tap("#whole-pattern")
        self.page.until(lambda: self.page.is_seen("#pattern-form [data-key=expect]"), "the fields")
        self.page.choose("#pattern-form [data-key=expect]", "at most")
        self.page.until(lambda: "expect at most 0" in self.page.value("#pattern-text"), "in the text")
        self.page.write("#pattern-form [data-key='expect-count']", f"1{Keys.TAB}")
        self.page.until(lambda: "expect at most 1" in self.page.value("#pattern-text"), "in the text")
        self.page.tab("rules")
        self.page.until(lambda: self.page.text("#rules-words") == "All 3 rules hold.", lambda: self.page.text("#rules-words"))
        self.assertTrue(all(holds for _, holds, _ in self.outcomes()))

    def test_nothing_expected(self):
        self.page.open()
        self.page.bring(self.page.temporary("plain.txt", "[graph]\na: truss\nb: motor\nb -carries-> a\n[query plain]\nt: truss\nm: motor\nm -carries-> t\n"))
        self.page.until_places(1)
        self.page.tab("rules")
        self.page.until(lambda: self.page.text("#rules-words") == "No pattern says what is expected of it.", lambda: self.page.text("#rules-words"))
        self.assertEqual(self.page.texts("#rules-list small"), ["nothing is expected"])


class RulesWide(Rules, PageTest):
    def test_by_keyboard_alone(self):
        self.page.example()
        self.page.until_places(1)
        self.page.tab_to("#tab-pattern")
        self.page.keys(Keys.ARROW_RIGHT)
        self.page.until(lambda: self.page.text("#rules-words") == "1 of 3 rules does not hold.", "the rules")
        self.page.tab_to("[data-rule='wired-lamps']")
        self.page.keys(Keys.ENTER)
        self.page.until_places(3)


class RulesOnAPhone(Rules, PageTest):
    size = PHONE


if __name__ == "__main__":
    unittest.main()
