#!/usr/bin/env python3
"""Makes the one file of the page: modules to one script each for the page and the Worker, and the pieces into index.html.

    bundle.py SRC VENDOR EXAMPLES WASM OUT

README.md says which forms of import and export there are.
"""

import base64
import hashlib
import json
import pathlib
import re
import sys

IMPORT = re.compile(r"^import\s+(?:(\{[^}]*\}|\*\s+as\s+[\w$]+)\s+from\s+)?[\"']\./([\w.-]+)[\"'];?[ \t]*$", re.M)
DECLARED = re.compile(r"^export\s+((?:async\s+)?function\s*\*?|class|const)\s+([\w$]+)", re.M)
LISTED = re.compile(r"^export\s+\{([^}]*)\};?[ \t]*$", re.M)
LEFT = re.compile(r"^\s*(?:import|export)\b.*$|\bimport\s*\(.*$", re.M)


def stop(words):
    sys.exit(f"bundle.py: {words}")


def renamed(names):
    """The pairs (there, here) of `a, b as c`."""
    pairs = [part.split() for part in names.split(",") if part.strip()]
    return [(words[0], words[-1]) for words in pairs]


class Bundle:
    """Modules in the order in which they are called, each a function whose result is what it exports."""

    def __init__(self, folder, made):
        self.folder = folder
        self.made = made
        self.done = []
        self.open = []
        self.exports = {}
        self.out = []

    def variable(self, name):
        return "module_" + re.sub(r"\W", "_", name[: -len(".js")])

    def add(self, name):
        if name in self.done:
            return
        if name in self.open:
            stop("a circle of imports: " + " -> ".join(self.open + [name]))
        self.open.append(name)
        path = self.folder / name
        if name not in self.made and not path.is_file():
            stop(f"{self.open[-2] if len(self.open) > 1 else 'the build'} imports ./{name}, which is not there")
        source = self.made[name] if name in self.made else path.read_text()
        for match in IMPORT.finditer(source):
            self.add(match.group(2))
        self.out.append(self.module(name, source))
        self.open.pop()
        self.done.append(name)

    def module(self, name, source):
        exports = []

        def imported(match):
            what, other = match.group(1), match.group(2)
            if not what:
                return ""
            if what.startswith("*"):
                return f"const {what.split()[-1]} = {self.variable(other)};"
            pairs = renamed(what[1:-1])
            for there, _ in pairs:
                if there not in self.exports[other]:
                    stop(f"{name} imports {there} from ./{other}, which exports no such thing")
            return "const { " + ", ".join(a if a == b else f"{a}: {b}" for a, b in pairs) + f" }} = {self.variable(other)};"

        def declared(match):
            exports.append((match.group(2), match.group(2)))
            return f"{match.group(1)} {match.group(2)}"

        def listed(match):
            exports.extend(renamed(match.group(1)))
            return ""

        code = IMPORT.sub(imported, source)
        code = DECLARED.sub(declared, code)
        code = LISTED.sub(listed, code)
        left = LEFT.search(code)
        if left:
            stop(f"{name}: no such form of import or export: {left.group(0).strip()}")
        self.exports[name] = {there for _, there in exports}
        result = ", ".join(a if a == b else f"{b}: {a}" for a, b in exports)
        return f"const {self.variable(name)} = (() => {{\n{code.strip()}\nreturn {{ {result} }};\n}})();\n"

    def script(self):
        return '"use strict";\n' + "".join(self.out)


def bundle(folder, entry, made=None):
    all_modules = Bundle(folder, made or {})
    all_modules.add(entry)
    return all_modules.script()


def in_script(value):
    """A value as JavaScript that may stand inside a script element."""
    return json.dumps(value, ensure_ascii=True).replace("<", "\\u003c")


def examples(folder):
    """The hangs that have a text: with the rules beside it, the richest first."""
    found = []
    for hang in sorted(folder.glob("*/hang.txt")):
        rules = hang.parent / "rules.txt"
        text = hang.read_text() + ("\n" + rules.read_text() if rules.is_file() else "")
        title = (hang.parent / "README.md").read_text().splitlines()[0].lstrip("# ")
        found.append((not rules.is_file(), {"name": hang.parent.name, "title": title, "text": text}))
    found.sort(key=lambda pair: pair[0])
    return [example for _, example in found]


def hashed(script):
    return "'sha256-" + base64.b64encode(hashlib.sha256(script.encode()).digest()).decode() + "'"


def main(src, vendor, example_folder, wasm, out):
    src = pathlib.Path(src)
    worker = bundle(src, "worker.js")
    assets = (
        f"export const wasm = {in_script(base64.b64encode(pathlib.Path(wasm).read_bytes()).decode())};\n"
        f"export const worker = {in_script(worker)};\n"
        f"export const examples = {in_script(examples(pathlib.Path(example_folder)))};\n"
    )
    scripts = [path.read_text() for path in sorted(pathlib.Path(vendor).glob("*.js"))]
    scripts.append(bundle(src, "main.js", {"assets.js": assets}))
    scripts = ["\n" + script.strip() + "\n" for script in scripts]
    for script in scripts:
        if re.search(r"</script|<!--", script, re.I):
            stop("a script has '</script' or '<!--' in it")
    policy = (
        "default-src 'none'; connect-src 'none'; form-action 'none'; base-uri 'none'; "
        f"script-src 'wasm-unsafe-eval' {' '.join(map(hashed, scripts))}; worker-src blob:; "
        "style-src 'unsafe-inline'; img-src data: blob:"
    )
    pieces = {
        "policy": f'<meta http-equiv="Content-Security-Policy" content="{policy}">',
        "style": "<style>\n" + (src / "style.css").read_text().strip() + "\n</style>",
        "script": "\n".join(f"<script>{script}</script>" for script in scripts),
    }
    page = (src / "index.html").read_text()
    for name, piece in pieces.items():
        mark = f"<!-- {name} -->"
        if page.count(mark) != 1:
            stop(f"index.html has {page.count(mark)} lines '{mark}', not 1")
        page = page.replace(mark, piece)
    pathlib.Path(out).write_text(page)


if __name__ == "__main__":
    main(*sys.argv[1:])
