"""A real browser with the page in it, opened from disk, and the native program beside it."""

import json
import os
import pathlib
import shutil
import subprocess
import tempfile
import unittest

from selenium import webdriver
from selenium.webdriver.chrome.options import Options
from selenium.webdriver.chrome.service import Service

ROOT = pathlib.Path(__file__).resolve().parents[2]
PAGE = pathlib.Path(os.environ.get("PAGE", ROOT / "page/rizhavaan.html")).resolve()
PROGRAM = ROOT / "target/bin/rizhavaan"
EXAMPLES = ROOT / "examples"
SHOTS = ROOT / "target/page/shots"

# Chromium's own errands; what is left in the log is the page's.
QUIET = [
    "--headless=new", "--no-sandbox", "--disable-gpu", "--disable-dev-shm-usage", "--no-first-run", "--disable-extensions",
    "--disable-background-networking", "--disable-component-update", "--disable-sync", "--disable-default-apps",
    "--disable-domain-reliability", "--disable-client-side-phishing-detection", "--metrics-recording-only", "--no-pings",
    "--disable-features=OptimizationHints,MediaRouter,Translate,InterestFeedContentSuggestions,CertificateTransparencyComponentUpdater",
]
# A new tab of Debian's Chromium, and addresses that leave no browser.
CHROMIUM = ("https://start.duckduckgo.com",)
INSIDE = ("blob:", "data:", "about:", "chrome:", "chrome-untrusted:")


def program(*words, text=None, check=True):
    """Runs the native program; answers (status, output, messages). Without check any status is taken."""
    done = subprocess.run([str(PROGRAM), *map(str, words)], input=text, capture_output=True, text=True, encoding="utf-8")
    if check and done.returncode > 1:
        raise AssertionError(f"rizhavaan {words}: {done.stderr}")
    return done.returncode, done.stdout, done.stderr


class Browser:
    """A browser window with the page. With touch, pointers are fingers; `words` are further ones of Chromium's command line."""

    def __init__(self, width=1280, height=800, touch=False, dark=False, profile=None, page=PAGE, words=()):
        self.page = page
        self.folder = tempfile.mkdtemp(prefix="page-", dir=os.environ.get("TMPDIR"))
        self.net_log = pathlib.Path(self.folder) / "net.json"
        options = Options()
        options.binary_location = "/usr/bin/chromium"
        for word in [*QUIET, *words, f"--window-size={width},{height}", f"--log-net-log={self.net_log}"]:
            options.add_argument(word)
        options.add_argument(f"--user-data-dir={profile or self.folder + '/profile'}")
        options.add_experimental_option("prefs", {"download.default_directory": self.folder + "/saved"})
        if touch:
            metrics = {"width": width, "height": height, "pixelRatio": 2.0, "touch": True}
            options.add_experimental_option("mobileEmulation", {"deviceMetrics": metrics})
        options.set_capability("goog:loggingPrefs", {"browser": "ALL", "performance": "ALL"})
        self.driver = webdriver.Chrome(options=options, service=Service("/usr/bin/chromedriver"))
        self.driver.set_script_timeout(300)
        if not touch:
            metrics = {"width": width, "height": height, "deviceScaleFactor": 1, "mobile": False}
            self.driver.execute_cdp_cmd("Emulation.setDeviceMetricsOverride", metrics)
        if dark:
            feature = [{"name": "prefers-color-scheme", "value": "dark"}]
            self.driver.execute_cdp_cmd("Emulation.setEmulatedMedia", {"features": feature})
        # What the browser opens by itself is not the page's.
        self.driver.get("about:blank")
        self.requests()

    @property
    def saved(self):
        """The folder that downloads go to."""
        return pathlib.Path(self.folder) / "saved"

    def open(self, fragment=""):
        self.driver.get(self.page.as_uri() + fragment)

    def js(self, body, *args):
        """The result of the body of an async function with the arguments `args`; raises where it throws."""
        done = self.driver.execute_async_script(
            "const args = [...arguments], done = args.pop();"
            f"(async () => {{ {body} }})().then((value) => done({{ value }}),"
            " (error) => done({ error: error instanceof Error ? error.message : JSON.stringify(error) }));",
            *args,
        )
        if "error" in done:
            raise AssertionError(done["error"])
        return done.get("value")

    def call(self, name, **args):
        """A call of the engine: its answer, or { no: { words, fault } } where there is none. Lists of numbers come as lists."""
        body = """
            const plain = (key, value) => (value instanceof Uint32Array ? [...value] : value);
            try {
                return JSON.stringify(await rizhavaan.engine.call(args[0], JSON.parse(args[1])), plain);
            } catch (no) {
                if (no instanceof Error) throw no;
                return JSON.stringify({ no });
            }"""
        return json.loads(self.js(body, name, json.dumps(args)))

    def find(self, text, **options):
        """window.rizhavaan.find: its object, or { refused, errors }."""
        return self.find_all([(text, options)])[0]

    def find_all(self, asked):
        """Several of them in one go: a list of (text, options)."""
        body = """
            const all = [];
            for (const [text, options] of JSON.parse(args[0])) {
                try {
                    all.push(await rizhavaan.find(text, options));
                } catch (error) {
                    all.push({ refused: error.message, errors: error.errors });
                }
            }
            return JSON.stringify(all);"""
        return json.loads(self.js(body, json.dumps(asked)))

    def shot(self, name):
        """A screenshot, to be looked at: target/page/shots/NAME.png."""
        SHOTS.mkdir(parents=True, exist_ok=True)
        path = SHOTS / f"{name}.png"
        self.driver.save_screenshot(str(path))
        return path

    def requests(self):
        """The addresses that the page asked for since the last look, without its own file."""
        addresses = []
        for entry in self.driver.get_log("performance"):
            message = json.loads(entry["message"])["message"]
            if message["method"] in ("Network.requestWillBeSent", "Network.webSocketCreated"):
                address = message["params"].get("request", message["params"])["url"]
                if address.split("#")[0] != self.page.as_uri() and not address.startswith(INSIDE):
                    addresses.append(address)
        return addresses

    def errors(self):
        """What the console has of errors since the last look."""
        entries = self.driver.get_log("browser")
        return [entry["message"] for entry in entries if entry["level"] == "SEVERE"]

    def close(self):
        """Ends the browser; answers the addresses of other machines that documents asked it for. Errands of its own have no origin."""
        self.driver.quit()
        asked = []
        for line in self.net_log.read_text(errors="replace").splitlines():
            if '"initiator":' not in line or '"initiator":"not an origin"' in line:
                continue
            params = json.loads(line.strip().rstrip(","))["params"]
            if params["url"].startswith(("http:", "https:", "ws:", "wss:")) and params["initiator"] not in CHROMIUM:
                asked.append(params["url"])
        shutil.rmtree(self.folder, ignore_errors=True)
        return asked


class PageTest(unittest.TestCase):
    """Tests in one window with the page. Nothing may be asked of a network, and the console has no error."""

    window = {}
    # Tests that provoke errors in the console set it.
    errors_allowed = False

    @classmethod
    def setUpClass(cls):
        cls.browser = Browser(**cls.window)
        cls.browser.open()

    @classmethod
    def tearDownClass(cls):
        asked = cls.browser.close()
        assert asked == [], f"the browser asked for {asked}"

    def tearDown(self):
        self.assertEqual(self.browser.requests(), [], "the page asked for something")
        errors = self.browser.errors()
        if not self.errors_allowed:
            self.assertEqual(errors, [], "the console has errors")
