"""What changed: changes entered by fields, written or loaded; the places that are gone, new and kept."""

import unittest

from selenium.webdriver.common.keys import Keys

from harness import program
from ui_page import PHONE, PageTest


class Changes:
    def start(self):
        self.page.example()
        self.page.until_places(1)

    def sorts(self):
        return self.page.texts("#diff-sorts button")

    def rows(self):
        script = """return [...document.querySelectorAll('#diff-list .row')].sort((a, b) => a.dataset.row - b.dataset.row)
                      .map((row) => [row.querySelector('.unseen').textContent, ...[...row.querySelectorAll('.chip')].map((chip) => chip.textContent)])"""
        return self.page.look(script)

    def test_gone_new_and_kept(self):
        self.start()
        self.page.tab("changes")
        self.page.until(lambda: self.sorts() == ["1 gone", "1 new", "0 kept"], lambda: f"gone, new and kept, not {self.sorts()}")
        self.assertEqual(self.rows(), [["gone", "front-truss", "motor-2", "motor-3"], ["new", "long-truss", "motor-2", "motor 4 (spare)"]])
        self.assertEqual(self.page.text("#diff-all"), "1 gone, 1 new, 0 kept: 1 place before, 1 after, all of them.")
        self.page.tap("#diff-list [data-row='1']")
        self.page.until(lambda: self.page.marked() == ["long-truss", "motor 4 (spare)", "motor-2"], "the new one is marked")
        self.assertGreater(len(self.page.all("#rig-content .line.added")), 0)
        self.assertGreater(len(self.page.all("#rig-content .line.taken")), 0)
        self.page.tap("#diff-sorts [data-sort=gone]")
        self.page.until(lambda: [row[0] for row in self.rows()] == ["gone"], "only what is gone")
        self.page.tab("places")
        self.page.until(lambda: self.page.marked() == ["front-truss", "motor-2", "motor-3"] and not self.page.all("#rig-content .line.added"), "the list's place again")

    def test_entered_by_fields(self):
        self.start()
        self.page.tab("changes")
        self.page.write("#changes-text", " ")
        self.page.write("#change-from", "motor-3")
        self.page.choose("#change-kind", "carries")
        self.page.write("#change-to", "front-truss")
        self.page.tap("#change-take")
        self.page.until(lambda: self.page.value("#changes-text") == "[changes]\n- motor-3 -carries-> front-truss\n", "the line")
        self.page.until(lambda: self.sorts() == ["1 gone", "0 new", "0 kept"], "gone")
        self.page.write("#change-from", "motor 4 (spare)")
        self.page.write("#change-to", "front-truss")
        self.page.tap("#change-add")
        self.page.until(lambda: '+ "motor 4 (spare)" -carries-> front-truss\n' in self.page.value("#changes-text"), "a name with blanks in quotes")
        self.page.until(lambda: self.sorts() == ["1 gone", "1 new", "0 kept"], "and new")

    def test_loaded_and_faulty(self):
        self.start()
        self.page.tab("changes")
        path = self.page.temporary("tuesday.txt", "[changes]\n- motor-2 -carries-> front-truss\n- motor-9 -carries-> front-truss\n")
        self.page.node("#changes-file").send_keys(str(path))
        self.page.until(lambda: self.page.texts("#changes .numbers .error") == ["3"], "the fault beside its line")
        self.assertIn("motor-9", self.page.text("#changes .faults"))
        self.page.node("#changes-file").send_keys(str(self.page.temporary("wednesday.txt", "- motor-2 -carries-> front-truss\n")))
        self.page.until(lambda: self.sorts() == ["1 gone", "0 new", "0 kept"], "lines without a head do as well")


class ChangesWide(Changes, PageTest):
    def test_by_keyboard_alone(self):
        self.start()
        self.page.tab_to("#show-changes")
        self.page.keys(Keys.ENTER)
        self.page.until(lambda: self.page.look("return document.activeElement.id") == "changes-text", "the text has the focus")
        self.page.chord(Keys.CONTROL, "a")
        self.page.keys("[changes]\n- motor-3 -carries-> front-truss\n")
        self.page.until(lambda: self.sorts() == ["1 gone", "0 new", "0 kept"], "gone")
        self.page.tab_to("#diff-list", back=True)
        self.page.keys(Keys.ARROW_DOWN)
        self.page.until(lambda: self.page.marked() == ["front-truss", "motor-2", "motor-3"], "marked")

    def test_as_the_program_says(self):
        """Each example that has changes, against the program's own lists."""
        for name in ["stage-rig", "truss-swap"]:
            self.page.example(name)
            self.page.until_places(1)
            self.page.tab("changes")
            self.page.until(lambda: self.page.all("#diff-sorts button") and self.sorts()[0] != "", "the lists")
            from harness import EXAMPLES

            words = ["-p", "two-lapsed"] if name == "stage-rig" else []
            _, printed, _ = program("diff", EXAMPLES / name, *words)
            for row in self.rows():
                self.assertTrue(all(word in printed for word in row[1:]), printed)


class ChangesOnAPhone(Changes, PageTest):
    size = PHONE


if __name__ == "__main__":
    unittest.main()
