"""500 random hangs: window.rizhavaan.find gives the object of the native program's `find --json`, key for key."""

import json
import random
import unittest

from hangs import Hang
from harness import PageTest, program

HANGS = 500
MEMORY = 2_000_000_000
PLANS = ["drawn", "drawn", "picked", "best", "cheapest"]


def native(text, plan, once):
    """What the program prints of a text, or its messages where it refuses."""
    words = ["find", "-", "--json", "--memory", MEMORY]
    words += [] if plan == "best" else ["--plan", plan]
    words += ["--once"] if once else []
    status, output, messages = program(*words, text=text, check=False)
    return json.loads(output) if status < 2 else {"refused": messages}


class Random(PageTest):
    def test_500_random_hangs(self):
        numbers = random.Random(37)
        asked = []
        for i in range(HANGS):
            text = Hang(numbers, large=i % 25 == 0).text()
            given = text.count("[plan") == text.count("[query") or i % 50 == 7
            plan = "given" if given else PLANS[i % len(PLANS)]
            asked.append((text, {"plan": plan, "once": numbers.random() < 0.3, "memory": MEMORY}))
        answers = []
        for at in range(0, HANGS, 50):
            answers += self.browser.find_all(asked[at : at + 50])
        places, refused, several = 0, 0, 0
        for (text, options), answer in zip(asked, answers):
            expected = native(text, options["plan"], options["once"])
            if "refused" in expected:
                self.assertIn("refused", answer, text)
                refused += 1
                continue
            self.assertEqual(answer, expected, text)
            lists = expected.get("patterns", [expected])
            several += len(lists) > 1
            places += sum(found["places"] for found in lists)
        # The comparison is of something: many places, few refusals (plans that are asked for and not given).
        self.assertGreater(places, 10_000)
        self.assertGreater(several, 50)
        self.assertGreater(refused, 0)
        self.assertLess(refused, HANGS // 20)
        print(f"{HANGS} hangs, {several} with several patterns, {refused} refused by both, {places} places", end=" ")

    def test_a_difference_would_be_seen(self):
        text = "[graph]\nvertices 3\n0 -1-> 1\n1 -1-> 2\n[query]\nvertices 2\n0 -1-> 1\n"
        other = text.replace("1 -1-> 2\n[", "2 -1-> 1\n[")
        self.assertEqual(self.browser.find(text, plan="drawn"), native(text, "drawn", False))
        self.assertNotEqual(self.browser.find(other, plan="drawn"), native(text, "drawn", False))


if __name__ == "__main__":
    unittest.main()
