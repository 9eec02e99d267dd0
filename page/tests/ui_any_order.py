"""Drawing and text stay the same pattern, whatever is done in whatever order: random taps, drags, fields, texts, undo and redo."""

import json
import os
import random
import unittest

from ui_page import PageTest

STEPS = int(os.environ.get("STEPS", "60"))
SEEDS = [int(seed) for seed in os.environ.get("SEEDS", "1 2 3").split()]
TEXTS = [
    "[query a]\nx: truss\ny: lamp\nx -clamp-> y\n",
    "[query b] # Motors.\nexpect at least 1\nm: motor inspected ..2025-11-15\nt: truss\nm -any-> t\n",
    '[query c]\nt: truss\n"lamp one": lamp\n"lamp two": lamp\nt -clamp-> "lamp one"\nt -"safety wire"-> "lamp two"\n"lamp one" < "lamp two"\n',
    "[query d]\nx: trusss\n",
    "[query e]\n",
]

DRAWN = """return { vertices: [...document.querySelectorAll('#pattern-content .vertex')].map((g) => g.getAttribute('aria-label')),
                    edges: [...document.querySelectorAll('#pattern-content .edge')].map((g) => g.getAttribute('aria-label')),
                    pairs: document.querySelectorAll('#pattern-content .pair[data-pair]').length }"""

# The middles of the vertices that are in sight.
SEEN = """const box = document.getElementById('pattern-drawing').getBoundingClientRect();
          return [...document.querySelectorAll('#pattern-content .vertex .shape')].map((n) => n.getBoundingClientRect())
            .map((b) => [Math.round(b.x + b.width / 2), Math.round(b.y + b.height / 2)])
            .filter(([x, y]) => x > box.left && x < box.right && y > box.top && y < box.bottom)"""


def words(pattern):
    """A pattern as the drawing says it."""
    name = lambda v: pattern["vertices"][v]["name"] or str(v)

    def days(vertex):
        span = vertex["days"]
        if not span:
            return ""
        first, last = span["first"], span["last"]
        return ", inspected " + (f"until {last}" if first is None else f"from {first}" if last is None else f"{first} to {last}")

    return {
        "vertices": [f"{name(v)}, {each['kind'] or 'of any kind'}{days(each)}" for v, each in enumerate(pattern["vertices"])],
        "edges": sorted(f"{name(e['from'])} to {name(e['to'])}, {e['kind'] or 'any connection'}" for e in pattern["edges"]),
        "pairs": len(pattern["pairs"]),
    }


class AnyOrder(PageTest):
    def step(self, numbers):
        page = self.page
        x, y = page.middle("#pattern-drawing")
        vertices = page.look(SEEN)
        near = (x + numbers.randint(-120, 120), y + numbers.randint(-90, 90))
        what = numbers.choice(["tap", "drag", "drag", "field", "field", "remove", "undo", "undo", "redo", "text", "new", "tidy", "once"])
        if what == "tap":
            page.drag([near])
        elif what == "drag" and vertices:
            start, end = numbers.choice(vertices), numbers.choice(vertices)
            page.drag([start, ((start[0] + end[0]) // 2, (start[1] + end[1]) // 2), end])
        elif what == "field":
            script = """const fields = [...document.querySelectorAll('#pattern-form select, #pattern-form input')]; if (!fields.length) return;
                        const field = fields[arguments[0] % fields.length]; const set = (value, type) => { field.value = value; field.dispatchEvent(new Event(type, { bubbles: true })); };
                        if (field.tagName === 'SELECT') set(field.options[arguments[1] % field.options.length].value, 'change');
                        else if (field.type === 'date') set(['2025-01-01', '2025-11-15', ''][arguments[1] % 3], 'change');
                        else if (field.type === 'number') set(String(arguments[1] % 5), 'change');
                        else set(['beam', 'a b', 'x' + arguments[1], 'Träger #1'][arguments[1] % 4], 'input');"""
            page.look(script, numbers.randint(0, 9), numbers.randint(0, 9))
        elif what == "text":
            page.look("const t = document.getElementById('pattern-text'); t.value = arguments[0]; t.dispatchEvent(new Event('input', { bubbles: true }))", numbers.choice(TEXTS))
        elif what == "remove" and page.is_seen("#pattern-form [data-key=remove]"):
            page.look("document.querySelector('#pattern-form [data-key=remove]').click()")
        elif what in ("undo", "redo", "tidy", "once"):
            page.look("document.getElementById(arguments[0]).click()", what)
        elif what == "new" and numbers.random() < 0.3:
            page.look("document.getElementById('new-pattern').click()")

    def same(self):
        """The drawing says what the text says, or the text has a fault that is shown."""
        text = self.page.value("#pattern-text")
        kinds = self.page.call("read", sources=[{"name": "hang", "text": self.hang}])["kinds"]
        answer = self.page.call("pattern", text=text, kinds=kinds)
        drawn = self.page.look(DRAWN)
        if answer["pattern"] is None:
            reasons = [fault["reason"] for fault in answer["errors"]]
            return all(reason.startswith("too few") for reason in reasons) or bool(self.page.texts("#pattern .faults button")), (text, drawn)
        drawn["edges"].sort()
        return drawn == words(answer["pattern"]), (text, drawn, words(answer["pattern"]))

    def test_drawing_and_text_are_one_pattern(self):
        self.page.example()
        self.page.until_places(1)
        self.hang = self.page.value("#hang-text")
        for seed in SEEDS:
            numbers = random.Random(seed)
            for step in range(STEPS):
                self.step(numbers)
                if step % 6 == 5:
                    self.page.until(lambda: self.same()[0], lambda: f"seed {seed}, step {step}: {json.dumps(self.same()[1], ensure_ascii=False)}")
            # Everything is undone, back to the pattern that was there first.
            while self.page.look("const undo = document.getElementById('undo'); if (undo.disabled) return false; undo.click(); return true"):
                pass
            self.page.until(lambda: self.page.value("#pattern-text").startswith("# The crew's book of rules"), f"seed {seed}: all is undone")
            self.page.look("if (document.getElementById('once').checked) document.getElementById('once').click()")
            self.page.until_places(1)


if __name__ == "__main__":
    unittest.main()
