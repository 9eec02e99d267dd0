"""Long runs: the time so far, a run that is cancelled, what waits behind it, and an end of memory in words."""

import unittest

from harness import PageTest

# All cycles of five in a dense hang: minutes.
LONG = "\n".join(
    ["[graph]", "vertices 400", *(f"{a} -1-> {b}" for a in range(400) for b in range(400) if a != b and (a * 7 + b * 3) % 2)]
    + ["[query]", "vertices 6", "0 -1-> 1", "1 -1-> 2", "2 -1-> 3", "3 -1-> 4", "4 -1-> 5", "5 -1-> 0", ""]
)
SHORT = "[graph]\nvertices 3\n0 -1-> 1\n1 -1-> 2\n[query]\nvertices 2\n0 -1-> 1\n"


class Cancel(PageTest):
    def test_cancelled_and_the_next_ones_answered(self):
        told = self.browser.js(
            """
            const [long, short] = args.map((text) => [{ name: "x", text }]);
            const stop = new AbortController();
            const times = [];
            const begun = performance.now();
            const run = rizhavaan.engine.call("find", { sources: long, countOnly: true, memory: 2e9 },
                                              { signal: stop.signal, onTime: (ms) => times.push(ms) });
            const behind = rizhavaan.engine.call("find", { sources: short });
            setTimeout(() => stop.abort(), 1500);
            let no = null;
            try { await run; } catch (error) { no = error; }
            const cancelled = performance.now() - begun;
            const { places } = (await behind).patterns[0];
            const after = performance.now() - begun - cancelled;
            return { no, times, cancelled, places, after, again: (await rizhavaan.find(args[1])).places };""",
            LONG,
            SHORT,
        )
        self.assertEqual(told["no"], {"cancelled": True})
        self.assertTrue(1400 < told["cancelled"] < 4000, told)
        self.assertGreaterEqual(len(told["times"]), 3)
        self.assertEqual(told["times"], sorted(told["times"]))
        self.assertEqual((told["places"], told["again"]), (2, 2))
        self.assertLess(told["after"], 3000)

    def test_what_waits_or_is_over_can_be_cancelled(self):
        told = self.browser.js(
            """
            const sources = [{ name: "x", text: args[0] }];
            const stop = new AbortController(), late = new AbortController(), before = new AbortController();
            before.abort();
            const rejected = (promise) => promise.then(() => false, (no) => no.cancelled);
            const first = rizhavaan.engine.call("find", { sources }, { signal: late.signal });
            const waits = rejected(rizhavaan.engine.call("find", { sources }, { signal: stop.signal }));
            const never = rejected(rizhavaan.engine.call("find", { sources }, { signal: before.signal }));
            stop.abort();
            const { places } = (await first).patterns[0];
            late.abort();
            return [await waits, await never, places, (await rizhavaan.find(args[0])).places];""",
            SHORT,
        )
        self.assertEqual(told, [True, True, 2, 2])

    def test_memory_that_may_not_be_taken(self):
        text = "\n".join(["[graph]", "vertices 60", *(f"{a} -1-> {b}" for a in range(60) for b in range(60)), "[query]", "vertices 4"]
                         + ["0 -1-> 1", "1 -1-> 2", "2 -1-> 3", ""])
        answer = self.browser.call("find", sources=[{"name": "x", "text": text}], memory=1_000_000)
        [found] = answer["patterns"]
        self.assertNotIn("rows", found)
        # 60 · 59 · 58 · 57 rows of 4 words.
        self.assertRegex(found["error"]["reason"], r"^the run needs 187 MB of list and \d+ bytes of scratch, which is more than the 1000 KB it may take\. Ask for less")
        self.assertNotIn("--", found["error"]["reason"])
        self.assertIn("needs 187 MB of list", self.browser.find(text, memory=1_000_000)["refused"])
        answer = self.browser.call("find", sources=[{"name": "x", "text": text}], countOnly=True)
        self.assertEqual(answer["patterns"][0]["places"], 60 * 59 * 58 * 57)


class LittleMemory(PageTest):
    """A browser that gives the module 128 MB, as a phone may."""

    window = {"words": ["--js-flags=--wasm-max-mem-pages=2048"]}

    def test_an_end_of_memory_is_said(self):
        answer = self.browser.call("find", sources=[{"name": "x", "text": LONG}], memory=2_000_000_000)
        self.assertIn("memory ended", answer["no"]["words"])
        self.assertNotIn("patterns", answer)
        self.assertEqual(self.browser.find(SHORT)["places"], 2)


if __name__ == "__main__":
    unittest.main()
