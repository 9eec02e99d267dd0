"""The look: targets of 44 px, nothing cut off at 360 px, light and dark readable, names for those who don't see it."""

import unittest

from ui_page import PHONE, WIDE, Page, PageTest

PARTS = ["hang", "pattern", "rules", "places", "changes", "work"]

SMALL = """return [...document.querySelectorAll('button, select, input, .button, a[href]')].filter((n) => {
    if (n.closest('.unseen, .skip') || n.classList.contains('unseen') || n.getClientRects().length === 0) return false;
    const box = n.getBoundingClientRect();
    const label = n.type === 'checkbox' ? n.closest('label').getBoundingClientRect() : box;
    return label.height < 44 || label.width < 44;
  }).map((n) => `${n.tagName} ${n.id || n.className || n.textContent} ${Math.round(n.getBoundingClientRect().width)}x${Math.round(n.getBoundingClientRect().height)}`)"""

NAMELESS = """return [...document.querySelectorAll('button, select, input, textarea, svg, dialog, [role=listbox], [role=tabpanel], [tabindex="0"]')].filter((n) => {
    if (n.getClientRects().length === 0) return false;
    const text = n.getAttribute('aria-label') || (n.getAttribute('aria-labelledby') && document.getElementById(n.getAttribute('aria-labelledby'))?.textContent)
      || n.labels?.[0]?.textContent || (n.tagName === 'BUTTON' && n.textContent);
    return !text || text.trim() === '';
  }).map((n) => n.outerHTML.slice(0, 80))"""

# Texts whose colour stands out too little from what is behind them, by the rule of 4.5 to 1.
PALE = """const canvas = document.createElement('canvas').getContext('2d', { willReadFrequently: true });
  const rgba = (c) => { canvas.clearRect(0, 0, 1, 1); canvas.fillStyle = c; canvas.fillRect(0, 0, 1, 1); return [...canvas.getImageData(0, 0, 1, 1).data]; };
  const light = ([r, g, b]) => { const f = (v) => { v /= 255; return v <= 0.03928 ? v / 12.92 : ((v + 0.055) / 1.055) ** 2.4; }; return 0.2126 * f(r) + 0.7152 * f(g) + 0.0722 * f(b); };
  const behind = (n) => { for (let p = n; p; p = p.parentElement) { const c = rgba(getComputedStyle(p).backgroundColor); if (c[3] > 250) return c; } return rgba('white'); };
  const walk = document.createTreeWalker(document.body, NodeFilter.SHOW_TEXT); const bad = [];
  for (let t = walk.nextNode(); t; t = walk.nextNode()) {
    const n = t.parentElement; if (!t.textContent.trim() || n.getClientRects().length === 0 || n.closest('svg, .unseen, :disabled, .skip, #say, option, script, style')) continue;
    const [a, b] = [light(rgba(getComputedStyle(n).color)), light(behind(n))].sort((x, y) => y - x);
    if ((a + 0.05) / (b + 0.05) < 4.5) bad.push(`${t.textContent.trim().slice(0, 30)}: ${((a + 0.05) / (b + 0.05)).toFixed(2)}`);
  }
  return bad"""


class Look:
    def each_part(self):
        self.page.example()
        self.page.until_places(1)
        for part in PARTS:
            self.page.tab(part)
            if part == "pattern":
                self.page.until_still("[data-vertex='0'] .shape")
                self.page.tap("[data-vertex='0'] .shape")
                self.page.until(lambda: self.page.is_seen("#pattern-form [data-key=remove]"), "the form")
            if part == "work":
                self.page.until(lambda: self.page.all("#work .records") and self.page.all("#spectrum .dot"), "records and orderings")
            if part == "changes":
                self.page.until(lambda: self.page.all("#diff-sorts button"), "the lists")
            yield part

    def test_targets_of_44_pixels(self):
        for part in self.each_part():
            with self.subTest(part):
                self.assertEqual(self.page.look(SMALL), [])

    def test_everything_has_a_name(self):
        for part in self.each_part():
            with self.subTest(part):
                self.assertEqual(self.page.look(NAMELESS), [])
        self.assertEqual(self.page.look("return document.documentElement.lang"), "en")

    def test_nothing_is_cut_off(self):
        for part in self.each_part():
            with self.subTest(part):
                wide = self.page.look("return [document.documentElement.scrollWidth, innerWidth]")
                self.assertLessEqual(wide[0], wide[1])
                out = """return [...document.querySelectorAll('button, select, input, p, h2')].filter((n) => n.getClientRects().length && !n.closest('.unseen, #columns, .rolling, .skip') && !n.classList.contains('unseen'))
                           .filter((n) => { const b = n.getBoundingClientRect(); return b.right > innerWidth + 1 || b.left < -1; }).map((n) => n.id || n.textContent)"""
                self.assertEqual(self.page.look(out), [])

    def test_light_and_dark_are_readable(self):
        for scheme in ["light", "dark"]:
            self.page.cdp("Emulation.setEmulatedMedia", features=[{"name": "prefers-color-scheme", "value": scheme}])
            for part in self.each_part():
                with self.subTest(f"{scheme} {part}"):
                    self.assertEqual(self.page.look(PALE), [])
        self.page.cdp("Emulation.setEmulatedMedia", features=[])


class LookWide(Look, PageTest):
    def test_three_things_at_once(self):
        self.page.example()
        self.page.until_places(1)
        for part in ["#pattern-drawing", "#pattern-text", "#rig-drawing", "#list"]:
            self.assertTrue(self.page.is_seen(part), part)

    def test_the_policy_forbids_every_connection(self):
        self.page.open()
        policy = self.page.look("return document.querySelector('meta[http-equiv=Content-Security-Policy]').content")
        self.assertIn("default-src 'none'", policy)
        self.assertIn("connect-src 'none'", policy)
        self.assertLess(self.page.page.stat().st_size, 1_500_000)


class LookOnAPhone(Look, PageTest):
    size = PHONE

    def test_one_thing_at_a_time(self):
        self.page.example()
        self.page.until_places(1)
        self.assertTrue(self.page.is_seen("#rig-drawing"), "the picture stays above the list")
        self.assertTrue(self.page.is_seen("#list"))
        self.assertFalse(self.page.is_seen("#pattern-drawing"))
        self.page.tab("pattern")
        self.assertFalse(self.page.is_seen("#list"))
        self.assertTrue(self.page.is_seen("#pattern-drawing"))


if __name__ == "__main__":
    unittest.main()
