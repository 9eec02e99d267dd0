"""What a person waits for: the example's list after opening, and a rig of 65,000 items from its file to its list."""

import os
import time
import unittest

from bench import FIRST_LIST_MS, LARGE_MS, rig
from ui_page import PageTest

TRIES = 5

# Notes when the list has been drawn.
WATCH = """window.listed = null; const title = document.getElementById('places-title');
           new MutationObserver(() => { if (/^[\\d,]+ places?$/.test(title.textContent) && window.listed === null) requestAnimationFrame(() => { window.listed = performance.now(); }); })
             .observe(title, { childList: true, characterData: true, subtree: true });"""


class Speed(PageTest):
    def setUp(self):
        if os.getloadavg()[0] > os.cpu_count():
            self.skipTest("the machine does other things: times say nothing of the page")

    def best(self, once, bound):
        """The least of several times: what else the machine does is not the page's."""
        times = []
        for _ in range(TRIES):
            times.append(once())
            if times[-1] <= bound:
                break
            time.sleep(1)
        self.assertLessEqual(min(times), bound, times)

    def test_the_example_within_a_second_of_opening(self):
        def once():
            self.page.open()
            self.page.driver.get("about:blank")
            self.page.driver.get(self.page.page.as_uri() + "#example=stage-rig")
            self.page.until_places(1)
            return self.page.look("return performance.now()")

        self.best(once, FIRST_LIST_MS)

    def test_65000_items_within_two_seconds(self):
        path = self.page.temporary("rig.txt", rig())

        def once():
            self.page.open()
            self.page.look(WATCH + "document.getElementById('file').addEventListener('change', () => { window.began = performance.now(); }, true)")
            self.page.bring(path)
            self.page.until(lambda: self.page.look("return window.listed") is not None, "the list")
            self.assertEqual(self.page.text("#places-all"), f"{self.page.text('#places-title')}, all of them.")
            return self.page.look("return window.listed - window.began")

        self.best(once, LARGE_MS)


if __name__ == "__main__":
    unittest.main()
