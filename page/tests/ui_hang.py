"""Bringing a hang: files, tables, a drop, a paste, an example; its summary, and all its faults beside their lines."""

import unittest

from selenium.webdriver.common.keys import Keys

from harness import EXAMPLES
from ui_page import PHONE, PageTest

RIG = EXAMPLES / "stage-rig"
ITEMS = ["motor 5", "truss 3", "lamp 3", "beam 2"]
CONNECTIONS = ["carries 10", "clamp 3", "safety wire 3"]

FAULTY = """[graph]
beam: beam
motor: motor day 2026-02-30
motor -carries-> trus
beam -carries-> motor
what is this
"""


class Hang:
    def summary(self):
        return self.page.texts("#hang-summary .chip")

    def until_summary(self):
        self.page.until(lambda: self.summary() == ITEMS + CONNECTIONS, "the summary by kind")
        self.assertEqual(self.page.texts("#hang-summary b"), ["13 items", "16 connections"])

    def test_a_text_is_chosen(self):
        self.page.open()
        self.assertEqual(self.page.text("#hang-empty p"), "Open a text or two tables, or look at an example.")
        self.page.bring(RIG / "hang.txt", RIG / "rules.txt")
        self.page.until_places(1)
        self.page.tab("hang")
        self.until_summary()
        self.assertFalse(self.page.is_seen("#hang-empty"))
        self.assertEqual(self.page.text("#title"), "Hang")

    def test_two_tables_and_rules(self):
        self.page.open()
        self.page.bring(RIG / "items.csv", RIG / "connections.csv")
        self.page.until(lambda: self.page.is_seen("#hang"), "the hang is shown")
        self.until_summary()
        self.assertEqual(self.page.texts("#hang-sources button"), ["items.csv", "connections.csv"])
        self.page.tap("#hang-sources button:nth-of-type(2)")
        self.assertIn("beam-north", self.page.value("#hang-text"))
        self.assertTrue(self.page.value("#hang-text").startswith("from"), self.page.value("#hang-text")[:40])
        self.page.bring(RIG / "rules.txt")
        self.page.until_places(1)
        self.assertEqual(self.page.rows(), [["front-truss", "motor-2", "motor-3"]])

    def test_an_example_is_tapped(self):
        self.page.open()
        self.page.tap("#show-examples-too")
        self.page.until(lambda: self.page.is_seen("[data-example=stage-rig]"), "the examples")
        self.assertEqual(len(self.page.all("#examples-list button")), len(list(EXAMPLES.glob("*/hang.txt"))))
        self.page.tap("[data-example=stage-rig]")
        self.page.until_places(1)

    def test_faults_beside_their_lines_all_at_once(self):
        self.page.open()
        self.page.bring(self.page.temporary("faulty.txt", FAULTY))
        self.page.until(lambda: len(self.page.all("#hang .faults button")) == 3, "three faults")
        self.assertEqual(self.page.texts("#hang .numbers .error"), ["3", "4", "6"])
        words = self.page.texts("#hang .faults button")
        self.assertIn("Line 3: 2026-02-30 is no date", words[0])
        self.assertIn("Line 4: ", words[1])
        self.assertIn("Line 6: ", words[2])
        tops = self.page.look("return [...document.querySelectorAll('#hang .beside')].map((n) => parseInt(n.style.top))")
        self.assertEqual(tops, [8 + 20 * 2, 8 + 20 * 3, 8 + 20 * 5])
        self.assertIn("3 faults", self.page.text("#hang-summary"))
        self.page.tap("#hang .faults li:nth-of-type(2) button")
        line = "const t = document.getElementById('hang-text'); return document.activeElement === t && t.value.slice(0, t.selectionStart).split('\\n').length"
        self.assertEqual(self.page.look(line), 4)

    def test_written_by_hand(self):
        self.page.open()
        self.page.write("#hang-text", "[graph]\na: truss\nb: motor\nb -carries-> a")
        self.page.until(lambda: self.summary() == ["truss 1", "motor 1", "carries 1"], "the summary follows")
        self.page.node("#hang-text").send_keys("\nb -lifts-> c")
        self.page.until(lambda: self.page.texts("#hang .numbers .error") == ["5"], "the fault is marked")
        self.page.node("#hang-text").send_keys(Keys.BACKSPACE, "a")
        self.page.until(lambda: self.summary() == ["truss 1", "motor 1", "carries 1", "lifts 1"], "mended")
        self.assertEqual(self.page.all("#hang .faults button"), [])


class HangWide(Hang, PageTest):
    def test_files_are_dropped(self):
        self.page.open()
        text = (RIG / "hang.txt").read_text() + (RIG / "rules.txt").read_text()
        drop = """const data = new DataTransfer(); data.items.add(new File([arguments[0]], 'monday.txt'));
                  for (const type of ['dragenter', 'dragover', 'drop']) document.body.dispatchEvent(new DragEvent(type, { bubbles: true, cancelable: true, dataTransfer: data }));"""
        self.page.look(drop, text)
        self.page.until_places(1)
        self.assertIn("opened from monday.txt", self.page.text("#about"))
        self.assertFalse(self.page.is_seen("#drop"))

    def test_a_text_is_pasted(self):
        text = (RIG / "hang.txt").read_text() + (RIG / "rules.txt").read_text()
        paste = """const data = new DataTransfer(); data.setData('text/plain', arguments[0]);
                   document.body.dispatchEvent(new ClipboardEvent('paste', { bubbles: true, cancelable: true, clipboardData: data }));"""
        self.page.open()
        self.page.look(paste, text)
        self.page.until_places(1)
        self.page.open()
        # Into the editor: patterns that stand in the text move to their own part.
        self.page.look("document.getElementById('hang-text').focus(); document.execCommand('insertText', false, arguments[0])", text)
        self.page.keys(Keys.TAB)
        self.page.until_places(1)
        self.assertNotIn("[query", self.page.value("#hang-text"))
        self.assertEqual(self.page.texts("#pattern-choice option"), ["two-lapsed", "wired-lamps", "over-people"])

    def test_by_keyboard_alone(self):
        self.page.open()
        self.page.tab_to("#show-examples-too")
        self.page.keys(Keys.ENTER)
        self.page.until(lambda: self.page.is_seen("[data-example=stage-rig]"), "the examples")
        self.page.tab_to("[data-example=truss-swap]")
        self.page.keys(Keys.ENTER)
        self.page.until_places(1)
        self.assertEqual(self.page.rows(), [["front-truss", "motor-b", "motor-c"]])

    def test_a_damaged_file_is_said(self):
        self.page.open()
        self.page.bring(self.page.temporary("damaged.txt", b"[graph]\nbeam: beam\n\xff\xfe\x00 what\n"))
        self.page.until(lambda: self.page.all("#hang .faults button"), "a fault")
        self.page.until(lambda: self.page.text("#places-title") in ("Places", "No list"), "no list")
        self.assertEqual(self.page.rows(), [])

    def test_a_text_of_another_system(self):
        """Line ends and a mark at the beginning as another system writes them."""
        text = (RIG / "hang.txt").read_text() + (RIG / "rules.txt").read_text()
        self.page.open()
        self.page.bring(self.page.temporary("windows.txt", "\ufeff" + text.replace("\n", "\r\n")))
        self.page.until_places(1)
        self.page.tab("hang")
        self.until_summary()
        self.assertEqual(self.page.texts("#pattern-choice option"), ["two-lapsed", "wired-lamps", "over-people"])

    def test_a_thousand_faults(self):
        self.page.open()
        self.page.bring(self.page.temporary("many.txt", "[graph]\na: truss\n" + "".join(f"a -x-> b{i}\n" for i in range(3000))))
        self.page.until(lambda: self.page.text("#hang-summary") == "3,000 faults, so there is no hang yet.", "all are counted")
        self.assertIn("more", self.page.text("#hang .faults li:last-child"))

    def test_a_long_text_is_folded(self):
        lines = "".join(f"m{i}: motor\n" for i in range(40_000))
        self.page.open()
        self.page.bring(self.page.temporary("long.txt", "[graph]\nt: truss\n" + lines + "m1 -carries-> t\n"))
        self.page.until(lambda: self.summary() == ["motor 40,000", "truss 1", "carries 1"], "it is read")
        self.assertEqual(self.page.value("#hang-text"), "")
        self.page.tap("#hang-long-show")
        self.page.until(lambda: self.page.value("#hang-text").endswith("m1 -carries-> t\n"), "the text")


class HangOnAPhone(Hang, PageTest):
    size = PHONE


if __name__ == "__main__":
    unittest.main()
