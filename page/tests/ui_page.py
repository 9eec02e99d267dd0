"""The page in a real browser, as a person has it: opened from disk, wide or on a phone, by pointer, by touch and by keyboard."""

import os
import pathlib
import time

from selenium.webdriver.common.action_chains import ActionChains
from selenium.webdriver.common.actions.action_builder import ActionBuilder
from selenium.webdriver.common.actions.interaction import POINTER_TOUCH
from selenium.webdriver.common.actions.pointer_input import PointerInput
from selenium.webdriver.common.by import By
from selenium.webdriver.common.keys import Keys

import harness
from harness import Browser

WIDE = (1280, 800)
PHONE = (360, 740)
PATIENCE = float(os.environ.get("PATIENCE", "20"))


class Page(Browser):
    """A browser with the page in it. `size` is wide or a phone, which has fingers."""

    def __init__(self, size=WIDE, **more):
        self.is_phone = size == PHONE
        super().__init__(width=size[0], height=size[1], touch=self.is_phone, **more)

    def cdp(self, name, **parameters):
        return self.driver.execute_cdp_cmd(name, parameters)

    # What is seen.

    def open(self, fragment="", fresh=True):
        """Opens the page from disk; with nothing kept from before where it is to be fresh."""
        if fresh:
            self.driver.get(self.page.as_uri() + "#fresh")
            self.look("localStorage.clear(); Storage.prototype.setItem = () => {};")
        self.driver.get("about:blank")
        self.driver.get(self.page.as_uri() + fragment)
        self.until(lambda: self.look("return Boolean(window.rizhavaan)"), "the page has begun")

    def look(self, script, *arguments):
        return self.driver.execute_script(script, *arguments)

    def node(self, css):
        return self.driver.find_element(By.CSS_SELECTOR, css)

    def all(self, css):
        return self.driver.find_elements(By.CSS_SELECTOR, css)

    def text(self, css):
        return self.look("return document.querySelector(arguments[0])?.textContent.trim() ?? ''", css)

    def texts(self, css):
        return self.look("return [...document.querySelectorAll(arguments[0])].map((node) => node.textContent.trim())", css)

    def value(self, css):
        return self.look("return document.querySelector(arguments[0]).value", css)

    def is_seen(self, css):
        return self.look("const n = document.querySelector(arguments[0]); return Boolean(n) && n.getClientRects().length > 0", css)

    def until(self, is_so, what):
        end = time.monotonic() + PATIENCE
        last = None
        while time.monotonic() < end:
            try:
                if is_so():
                    return
                last = None
            except Exception as error:  # an element that is being drawn anew
                last = error
            time.sleep(0.03)
        words = what() if callable(what) else what
        raise AssertionError(f"waited in vain: {words}{f' ({last})' if last else ''}; places say: {self.text('#places-title')!r} {self.text('#places-words')!r}")

    def rows(self):
        """The rows of the list that are in the document, by names."""
        script = """return [...document.querySelectorAll('#list .row')].sort((a, b) => a.dataset.row - b.dataset.row)
                      .map((row) => [...row.querySelectorAll('.chip')].map((chip) => chip.textContent))"""
        return self.look(script)

    def until_places(self, n):
        words = f"{n:,} place{'' if n == 1 else 's'}"
        self.until(lambda: self.text("#places-title") == words and self.look("return document.getElementById('places').getAttribute('aria-busy') !== 'true'"), words)

    def marked(self):
        return sorted(self.texts("#rig-content .item.marked text"))

    # What a person does.

    def middle(self, css, dx=0, dy=0):
        box = self.look(
            "const n = typeof arguments[0] === 'string' ? document.querySelector(arguments[0]) : arguments[0];"
            "n.scrollIntoView({ block: 'nearest', inline: 'nearest' }); const b = n.getBoundingClientRect(); return [b.x + b.width / 2, b.y + b.height / 2]",
            css,
        )
        return round(box[0] + dx), round(box[1] + dy)

    def tap(self, css, dx=0, dy=0):
        """By the pointer, or by a finger on a phone."""
        self.drag([self.middle(css, dx, dy)])

    def until_still(self, css):
        """A drawing glides to its place: until it stands there."""
        seen = []

        def stands():
            seen.append(self.middle(css))
            return len(seen) > 3 and len(set(seen[-4:])) == 1

        self.until(stands, f"{css} stands still")

    def drag(self, points):
        pointer = PointerInput(POINTER_TOUCH, "finger") if self.is_phone else PointerInput("mouse", "mouse")
        actions = ActionBuilder(self.driver, mouse=pointer, duration=40)
        (x, y), *rest = points
        actions.pointer_action.move_to_location(x, y)
        actions.pointer_action.pointer_down()
        for x, y in rest:
            actions.pointer_action.move_to_location(x, y)
        actions.pointer_action.pointer_up()
        actions.perform()

    def pinch(self, css, start, end):
        """Two fingers, from so far apart to so far."""
        x, y = self.middle(css)
        touch = lambda kind, apart: self.cdp(
            "Input.dispatchTouchEvent",
            type=kind,
            touchPoints=[] if apart is None else [{"x": x - apart, "y": y, "id": 0}, {"x": x + apart, "y": y, "id": 1}],
        )
        touch("touchStart", start)
        for i in range(1, 6):
            touch("touchMove", start + (end - start) * i / 5)
        touch("touchEnd", None)

    def keys(self, *all_keys):
        for key in all_keys:
            ActionChains(self.driver).send_keys(key).perform()

    def chord(self, modifier, key):
        ActionChains(self.driver).key_down(modifier).send_keys(key).key_up(modifier).perform()

    def tab_to(self, css, most=80, back=False):
        """By the Tab key alone."""
        for _ in range(most):
            if self.look("return document.activeElement?.matches(arguments[0]) ?? false", css):
                return
            if back:
                self.chord(Keys.SHIFT, Keys.TAB)
            else:
                self.keys(Keys.TAB)
        raise AssertionError(f"Tab does not reach {css}")

    def choose(self, css, words):
        """Picks an option by its words."""
        node = self.node(css)
        option = [each for each in node.find_elements(By.TAG_NAME, "option") if each.text.strip() == words]
        if not option:
            raise AssertionError(f"{css} has no option {words!r}: {[each.text for each in node.find_elements(By.TAG_NAME, 'option')]}")
        option[0].click()

    def write(self, css, text):
        """A text by the keyboard, in place of what stands there."""
        node = self.node(css)
        node.click()
        node.send_keys(Keys.CONTROL, "a")
        node.send_keys(Keys.DELETE)
        node.send_keys(text)

    def bring(self, *paths):
        self.node("#file").send_keys("\n".join(str(path) for path in paths))

    def example(self, name="stage-rig"):
        self.open(f"#example={name}")

    def tab(self, name):
        """To a part of the page: by the tabs at the thumb on a phone."""
        if self.is_phone and name in ("hang", "pattern", "places", "rules"):
            self.tap(f"#thumbs [data-tab={name}]")
        else:
            if self.is_phone:
                self.tap("#thumbs [data-tab=places]")
            self.tap(f"#tab-{name}")
        self.until(lambda: self.is_seen(f"#{name}"), f"{name} is seen")

    def temporary(self, name, text):
        path = pathlib.Path(self.folder) / name
        path.write_bytes(text if isinstance(text, bytes) else text.encode())
        return path

    def downloaded(self, ending):
        found = []

        def is_there():
            folder = self.saved
            found[:] = [p for p in (folder.iterdir() if folder.exists() else []) if p.name.endswith(ending) and not p.name.endswith(".crdownload")]
            return bool(found)

        self.until(is_there, f"a file {ending} is saved")
        return found[0]


class PageTest(harness.PageTest):
    """Tests by a person in one window, wide or a phone."""

    size = WIDE

    @classmethod
    def setUpClass(cls):
        cls.browser = cls.page = Page(cls.size)
