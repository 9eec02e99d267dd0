"""The one file: its size, what it may reach, and that the same sources give the same bytes."""

import base64
import http.server
import os
import pathlib
import re
import shutil
import subprocess
import tempfile
import threading
import unittest

from harness import PAGE, ROOT, Browser, PageTest

MOST_BYTES = 1_500_000


class TheFile(unittest.TestCase):
    def test_size(self):
        self.assertLess(PAGE.stat().st_size, MOST_BYTES)

    def test_it_names_nothing_outside(self):
        text = PAGE.read_text()
        document = re.sub(r"<script>.*?</script>", "", text, flags=re.S)
        self.assertEqual(re.findall(r"""(?:src|href|action|data|poster)\s*=\s*["']?(?!#|data:)[^"'\s>]*[:/][^"'\s>]*""", document), [])
        self.assertEqual(re.findall(r"@import|url\((?!['\"]?data:)", document), [])

    def test_policy(self):
        text = PAGE.read_text()
        [policy] = re.findall(r'<meta http-equiv="Content-Security-Policy" content="([^"]*)">', text)
        self.assertLess(text.index("Content-Security-Policy"), text.index("<script"))
        rules = dict((words[0], words[1:]) for words in (rule.split() for rule in policy.split(";")))
        self.assertEqual((rules["default-src"], rules["connect-src"], rules["form-action"]), (["'none'"],) * 3)
        scripts = rules["script-src"]
        self.assertFalse({"'unsafe-inline'", "'unsafe-eval'", "'self'", "*", "https:", "http:"} & set(scripts))

    def test_neither_dates_nor_paths(self):
        text = PAGE.read_text()
        [module] = re.findall(r'const wasm = "([^"]*)"', text)
        module = base64.b64decode(module)
        self.assertEqual(module[:4], b"\0asm")
        for word in (str(ROOT), "/usr/share/cargo", os.path.expanduser("~") + "/"):
            self.assertNotIn(word, text)
            self.assertNotIn(word.encode(), module)

    def test_built_again_it_is_the_same(self):
        """Elsewhere, from nothing but the sources and the proved engine's module."""
        if not (ROOT / "target/page/module.bc").is_file():
            subprocess.run([ROOT / "page/module"], check=True, capture_output=True)
        with tempfile.TemporaryDirectory(dir=os.environ.get("TMPDIR")) as folder:
            copy = pathlib.Path(folder) / "elsewhere"
            for part in ("core", "page", "examples"):
                shutil.copytree(ROOT / part, copy / part, ignore=shutil.ignore_patterns("target", "Cargo.lock", "__pycache__", "rizhavaan.html"))
            (copy / "target/page").mkdir(parents=True)
            shutil.copy(ROOT / "target/page/module.bc", copy / "target/page")
            done = subprocess.run([copy / "page/build", "--built"], capture_output=True, text=True)
            self.assertEqual(done.returncode, 0, done.stderr)
            self.assertTrue((copy / "page/rizhavaan.html").read_bytes() == PAGE.read_bytes(), "the bytes differ: page/build, and commit what it makes")


class Asked(http.server.BaseHTTPRequestHandler):
    """A server that remembers what it was asked for."""

    addresses = []

    def do_GET(self):
        self.addresses.append(self.path)
        self.send_response(200)
        self.send_header("Access-Control-Allow-Origin", "*")
        self.end_headers()

    do_POST = do_GET

    def log_message(self, *words):
        pass


TRIES = """
    const tried = [];
    const fails = (name, promise) => promise.then(() => tried.push(name + " went through"), () => {});
    const image = (src) => new Promise((resolve, reject) => Object.assign(new Image(), { onload: resolve, onerror: resolve, src }));
    const server = args[0];
    await fails("fetch", fetch(server + "fetch"));
    await image(server + "image");
    navigator.sendBeacon(server + "beacon", "x");
    const script = Object.assign(document.createElement("script"), { src: server + "script" });
    document.head.append(script);
    const style = Object.assign(document.createElement("link"), { rel: "stylesheet", href: server + "style" });
    document.head.append(style);
    const frame = Object.assign(document.createElement("iframe"), { src: server + "frame" });
    document.body.append(frame);
    try { new WebSocket(server.replace("http", "ws") + "socket"); } catch (error) { /* refused at once */ }
    const code = `fetch("${server}worker").then(() => postMessage(true), () => postMessage(false))`;
    const worker = new Worker(URL.createObjectURL(new Blob([code])));
    if (await new Promise((resolve) => { worker.onmessage = (event) => resolve(event.data); })) tried.push("worker went through");
    await new Promise((resolve) => setTimeout(resolve, 500));
    script.remove(); style.remove(); frame.remove(); worker.terminate();
    return tried;"""


class NothingLeaves(unittest.TestCase):
    """What the page itself asks for is looked at in every test; here a script in it tries all ways out."""

    def setUp(self):
        self.server = http.server.ThreadingHTTPServer(("127.0.0.1", 0), Asked)
        threading.Thread(target=self.server.serve_forever, daemon=True).start()
        self.address = f"http://127.0.0.1:{self.server.server_port}/"
        Asked.addresses.clear()
        self.browser = Browser()
        self.addCleanup(self.browser.driver.quit)

    def tearDown(self):
        self.server.shutdown()
        self.server.server_close()

    def test_every_way_out_is_shut(self):
        self.browser.open()
        self.assertEqual(self.browser.js(TRIES, self.address), [])
        self.browser.close()
        self.assertEqual(Asked.addresses, [])

    def test_without_the_policy_the_server_hears_of_it(self):
        with tempfile.TemporaryDirectory(dir=os.environ.get("TMPDIR")) as folder:
            open_page = pathlib.Path(folder) / "open.html"
            open_page.write_text("<!doctype html><body></body>")
            self.browser.page = open_page
            self.browser.open()
            self.assertEqual(self.browser.js(TRIES, self.address), ["fetch went through", "worker went through"])
            self.assertTrue({"/fetch", "/image", "/script", "/style", "/frame"} <= {path for path in Asked.addresses})
            self.assertIn(self.address + "fetch", self.browser.requests())
            self.assertIn(self.address + "fetch", self.browser.close())


class OpenedFromDisk(PageTest):
    def test_the_address_is_a_file(self):
        self.assertTrue(self.browser.driver.current_url.startswith("file://"))
        self.assertEqual(self.browser.js("return document.documentElement.lang;"), "en")
        text = "[graph]\nvertices 2\n0 -1-> 1\n[query]\nvertices 2\n0 -1-> 1\n"
        self.assertEqual(self.browser.find(text)["rows"], [["0", "1"]])


if __name__ == "__main__":
    unittest.main()
