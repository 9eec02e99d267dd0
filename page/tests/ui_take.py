"""Taking it along: CSV, text, the address, the browser's storage, the sheets on paper."""

import base64
import csv
import re
import unittest

from selenium.webdriver.common.keys import Keys

from harness import EXAMPLES, program
from ui_page import PHONE, PageTest

RIG = EXAMPLES / "stage-rig"


class Take:
    def start(self, pattern=None, places=1):
        self.page.example()
        self.page.until_places(1)
        if pattern:
            self.page.tab("pattern")
            self.page.choose("#pattern-choice", pattern)
            self.page.tab("places")
            self.page.until_places(places)

    def menu(self):
        if self.size == PHONE:
            self.page.tap("#menu-button")
        self.page.tap("#show-save")
        self.page.until(lambda: self.page.is_seen("#save-csv"), "the dialog")

    def test_the_list_as_csv(self):
        self.start("over-people", 8)
        self.menu()
        self.page.tap("#save-csv")
        path = self.page.downloaded("over-people.csv")
        _, printed, _ = program("find", RIG, "-p", "over-people", "--csv")
        self.assertEqual(path.read_text(), printed)
        self.assertEqual(len(list(csv.reader(path.read_text().splitlines()))), 9)
        self.assertEqual(self.page.text("#say"), "8 places saved, all of them.")
        path.unlink()

    def test_everything_as_text(self):
        self.start()
        self.menu()
        self.page.tap("#save-text")
        path = self.page.downloaded(".txt")
        text = path.read_text()
        self.assertIn("# without a day: nobody knows", text, "comments stay")
        status, printed, _ = program("find", path, "--json")
        _, expected, _ = program("find", RIG, "--json")
        self.assertEqual(printed, expected)
        _, changed, _ = program("diff", path, "-p", "two-lapsed")
        self.assertIn("long-truss", changed)
        self.page.open()
        self.page.bring(path)
        self.page.until_places(1)
        path.unlink()

    def test_tables_as_text(self):
        self.page.open()
        self.page.bring(RIG / "items.csv", RIG / "connections.csv", RIG / "rules.txt")
        self.page.until_places(1)
        self.menu()
        self.page.tap("#save-text")
        path = self.page.downloaded(".txt")
        _, printed, _ = program("find", path, "-p", "wired-lamps", "--csv")
        _, expected, _ = program("find", RIG, "-p", "wired-lamps", "--csv")
        self.assertEqual(printed, expected)
        path.unlink()

    def test_everything_in_the_address(self):
        self.start("wired-lamps", 3)
        self.menu()
        self.page.tap("#save-address")
        self.page.until(lambda: "#all=" in self.page.value("#address"), "the address")
        address = self.page.value("#address")
        self.page.open(address[address.index("#"):])
        self.page.until_places(3)
        self.assertEqual(self.page.value("#pattern-choice"), "1")
        self.assertEqual(self.page.text("#title"), "A stage rig and the crew's book of rules")
        self.assertIn("[changes]", self.page.value("#changes-text"))

    def test_kept_in_the_browser(self):
        self.start("wired-lamps", 3)
        self.page.until(lambda: "wired" in (self.page.look("return localStorage.getItem('rizhavaan')") or "") and '"chosen":1' in self.page.look("return localStorage.getItem('rizhavaan')"), "kept")
        self.page.open(fresh=False)
        self.page.until_places(3)
        self.menu()
        self.page.tap("#clear")
        self.page.until(lambda: self.page.is_seen("#hang-empty"), "nothing is left")
        self.page.until(lambda: self.page.look("return localStorage.getItem('rizhavaan')") is None, "nothing is kept")

    def test_the_sheets(self):
        self.start("over-people", 8)
        self.page.look("window.print = () => { window.printed = [...document.querySelectorAll('#sheets .page')].map((n) => n.textContent) }")
        self.page.tap("#print")
        self.page.until(lambda: self.page.look("return window.printed?.length") == 2, "a sheet and its key")
        pages = self.page.look("return window.printed")
        _, sheets, _ = program("find", RIG, "-p", "over-people", "--sheet")
        _, with_key, _ = program("find", RIG, "-p", "over-people", "--sheet", "--key")
        self.assertEqual(pages[0].rstrip(), sheets.rstrip("\f\n "))
        self.assertEqual(pages[0].count("\n"), 60)
        for name in ["beam-north", "motor 4 (spare)", "lamp-3"]:
            self.assertIn(name, pages[1])


class TakeWide(Take, PageTest):
    def printed_pages(self, width, height):
        pdf = base64.b64decode(self.page.cdp("Page.printToPDF", paperWidth=width, paperHeight=height, preferCSSPageSize=False)["data"])
        return len(re.findall(rb"/Type\s*/Page[^s]", pdf))

    def test_on_paper(self):
        n = 12
        text = "[graph]\n" + "".join(f"m{i}: motor\nt{i}: truss\n" for i in range(n)) + "".join(f"m{i} -carries-> t{j}\n" for i in range(n) for j in range(n))
        self.page.open()
        self.page.bring(self.page.temporary("paper.txt", text + "[query every]\na: motor\nb: truss\na -carries-> b\n"))
        self.page.until_places(n * n)
        for paper in [(8.27, 11.69), (8.5, 11), (11.69, 16.54)]:
            self.page.look("window.asked = false; window.print = () => { window.asked = true }")
            self.page.tap("#print")
            self.page.until(lambda: self.page.look("return window.asked"), "the sheets")
            self.assertEqual(len(self.page.all("#sheets .page:not(.key)")), 3)
            self.assertEqual(self.printed_pages(*paper), 4, f"three sheets and a key, a paper each, of {paper}")
            self.page.until(lambda: not self.page.all("#sheets .page"), "printed, they are gone")

    def test_without_the_sheets(self):
        self.start("over-people", 8)
        self.page.look("window.dispatchEvent(new Event('beforeprint'))")
        self.page.cdp("Emulation.setEmulatedMedia", media="print")
        self.assertTrue(self.page.is_seen("#print-plain table"))
        self.assertFalse(self.page.is_seen("header"))
        words = self.page.text("#print-plain")
        self.assertIn("8 places, all of them.", words)
        self.assertIn("motor 4 (spare)", words)
        self.page.cdp("Emulation.setEmulatedMedia", media="")
        self.page.look("window.dispatchEvent(new Event('afterprint'))")

    def test_a_long_saving_is_cancelled(self):
        n = 150
        items = "".join(f"m{i}: motor\nt{i}: truss\n" for i in range(n)) + "".join(f"m{i} -carries-> t{j}\n" for i in range(n) for j in range(n))
        heavy = "[query heavy]\n" + "".join(f"a{i}: motor\n" for i in range(4)) + "b: truss\n" + "".join(f"a{i} -carries-> b\n" for i in range(4))
        self.page.example()
        self.page.until_places(1)
        # The list is there; what is saved is asked of another hang, which takes long.
        self.page.look("const { engine } = window.rizhavaan; const call = engine.call; const text = arguments[0];"
                       "engine.call = (name, args, more) => call(name, name === 'csv' ? { ...args, pattern: 'heavy', sources: [{ name: 'heavy.txt', text }] } : args, more)",
                       "[graph]\n" + items + heavy)
        self.menu()
        self.page.tap("#save-csv")
        self.page.until(lambda: self.page.is_seen("#taking-cancel"), "the time so far and Cancel")
        self.assertRegex(self.page.text("#taking-time"), r"^\d+ ms$|^\d+\.\d s$")
        self.page.tap("#taking-cancel")
        self.page.until(lambda: self.page.text("#say") == "Cancelled. Nothing was saved.", "cancelled")
        self.assertFalse(self.page.is_seen("#taking"))
        self.page.tap("#once")
        self.page.until_places(1)

    def test_by_keyboard_alone(self):
        self.start()
        self.page.tab_to("#show-save")
        self.page.keys(Keys.ENTER)
        self.page.until(lambda: self.page.is_seen("#save-csv"), "the dialog")
        self.page.tab_to("#save-csv")
        self.page.keys(Keys.ENTER)
        self.page.downloaded("two-lapsed.csv").unlink()
        self.page.keys(Keys.ESCAPE)
        self.page.until(lambda: not self.page.is_seen("#save-csv"), "closed")

    def test_a_damaged_address_is_passed_over(self):
        self.page.open("#all=AAAA")
        self.page.until(lambda: self.page.is_seen("#hang-empty"), "nothing is taken in")
        self.assertEqual(self.page.text("#say"), "The address is damaged: nothing was taken from it.")


class TakeOnAPhone(Take, PageTest):
    size = PHONE


if __name__ == "__main__":
    unittest.main()
