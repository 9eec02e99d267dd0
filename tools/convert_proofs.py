#!/usr/bin/env python3
"""Turns the Proof.antt files that name each part of the tie into Invariants.antt and Answers.antt.

usage: tools/convert_proofs.py NAMES CRATE..      at the top of the repository

NAMES/CRATE/names.json is what `rattle check --generated NAMES/CRATE --old-names` writes of the crate. An answer that the check finds alone is left out.
A line that begins 'left:' names a place to mend by hand.
"""
import json
import os
import re
import sys

WORD = r"[^\W\d][\w'ᴰ]*(?:-[\w']+)*|μ-[\w']+"
PATH = re.compile(r"(?<![\w'.·-])((?:%s))((?:\.[\w'-]+)*)" % WORD)
TRIVIAL = re.compile(r"^(?:search rules|search needs|omega arith|refl)$")


def plain(name):
    return re.sub("-+", "-", name.replace("_", "-"))


class Names:
    def __init__(self, data):
        self.needs = {}
        for (old, new), (place, new_place) in zip(data["needs"], data["asked_at"]):
            self.needs.setdefault(plain(old), (new, place))
        self.places = {p[0]: p for p in data["places"]}
        self.by_plain = {plain(p[0]): p[0] for p in data["places"]}
        self.new_places = dict(zip([p[0] for p in data["places"]], data["places_by_name"]))
        self.params = data["params"]
        self.loops = data["loops"]
        self.changed = data["changed"]
        self.pre = data["pre"]
        self.clauses = {p[0]: (c or {}).get("fields") or [] for p, c in zip(data["places"], data["clauses"])}
        self.args = {}
        for old, new in data["args"] or []:
            if old.startswith(".args "):
                self.args[old.split(".")[-1]] = new.split(".")[-1]
        self.asked = {plain(k): v for k, v in data["asked"].items()} if data["asked"] else {}

    def step(self, place, word):
        """The new name of a step at the place or at one further out, and its callee."""
        for it in (word, re.sub("_lem$", "", word), re.sub(r"\d+$", "", word)):
            got = self.named(place, plain(it).lower())
            if got[0] is not None:
                return got
        return None, None, None

    def named(self, place, want):
        at = place
        while at:
            p = self.places[at]
            if plain(p[2][0]).lower() == want:
                return p[2][1], p[3], self.clauses[p[0]]
            at = p[1]
        for p in self.places.values():
            if plain(p[2][0]).lower() == want:
                return p[2][1], p[3], self.clauses[p[0]]
        return None, None, None


def by_position(fields, names):
    """fields after a tuple of names, as ['1', '1', '0', ...]: the name at that place and what follows."""
    i = 0
    while i < len(fields) and fields[i] == "1" and i < len(names) - 1:
        i += 1
    if i == len(names) - 1:
        return [names[i], *fields[i:]]
    if i < len(fields) and fields[i] == "0":
        return [names[i], *fields[i + 1 :]]
    return None


class Turner:
    def __init__(self, names, where, said):
        self.names, self.where, self.said = names, where, said
        self.aliases = {"c"}
        self.of_requires = {}

    def left(self, what):
        self.said.append(f"left: {self.where}: {what}")

    def path(self, head, rest, place):
        """A path from a place, with the names of today; None for the place itself."""
        segs = [s for s in rest.split(".") if s]
        while segs and segs[0] == "before":
            segs.pop(0)
        if not segs:
            return None
        first = segs[0]
        if first in ("requires", "pre"):
            pre = self.names.pre
            tail = segs[1:]
            if pre and pre.get("fields"):
                got = by_position(tail, pre["fields"])
                if got is None and not tail:
                    return "(" + ", ".join("c.requires." + f for f in pre["fields"]) + ")"
                if got is None:
                    self.left(f"requires.{'.'.join(tail)}")
                    got = tail
                tail = got
            return ".".join(["c", "requires", *tail])
        if first in ("args", "ranges") and len(segs) > 1:
            return ".".join(["c", first, self.names.args.get(segs[1], segs[1]), *segs[2:]])
        if first in ("args", "ranges", "type_inv", "utf8"):
            return ".".join(["c", *segs])
        if first in ("well-formed", "well_formed"):
            return ".".join(["c", "type_inv", *segs[1:]])
        new, callee, clauses = self.names.step(place, first)
        if new is None:
            self.left(f"no step {first} at {place}")
            return ".".join(["c", *segs])
        tail = segs[1:]
        if tail and tail[0] == "ensures" and clauses:
            got = by_position(tail[1:], clauses)
            if got is None and len(tail) == 1:
                return "(" + ", ".join(f"c.{new}.ensures.{f}" for f in clauses) + ")"
            if got is None:
                self.left(f"{new}.ensures.{'.'.join(tail[1:])}")
                got = tail[1:]
            tail = ["ensures", *got]
        if tail and tail[0] in ("new", "auto") and len(tail) > 1 and tail[1] in ("0", "1") and callee in self.names.params:
            params = self.names.params[callee]
            got = by_position(tail[1:], [*params, "the-rest"])
            if got:
                tail = [tail[0], *got]
        return ".".join(["c", new, *tail])

    def body(self, text, place):
        # let X = c.before.. in
        def drop(m):
            self.aliases.add(m[1])
            return ""

        def drop_requires(m):
            self.of_requires[m[1]] = m[2]
            return ""

        while True:
            alias = "|".join(map(re.escape, sorted(self.aliases, key=len, reverse=True)))
            new = re.sub(r"\blet (%s) = (?:%s)((?:\.before)*)\s+in\s+" % (WORD, alias), drop, text, count=1)
            if new == text:
                new = re.sub(r"\blet (%s) = (?:%s)((?:\.[\w'-]+)*\.(?:requires|ensures))\s+in\s+" % (WORD, alias), drop_requires, text, count=1)
            if new == text:
                break
            text = new

        def turn(m):
            head, rest = m[1], m[2]
            if head in self.of_requires:
                return self.path("c", self.of_requires[head] + rest, place)
            if head in self.aliases:
                got = self.path(head, rest, place)
                return "c" if got is None else got
            return m[0]

        return PATH.sub(turn, text)


def decls_of(text):
    """The parts of a file: ('use', line), ('comment', line) and ('decl', name, type, unfolding, [clauses])."""
    lines = text.split("\n")
    out, i = [], 0
    while i < len(lines):
        line = lines[i]
        if not line.strip():
            i += 1
            continue
        if line.startswith("--"):
            out.append(("comment", line))
            i += 1
            continue
        if line.startswith("use ") or line.startswith("pub use "):
            while "{" in line and "}" not in line:
                i += 1
                line += " " + lines[i].strip()
            out.append(("use", line.replace("{ ", "{").replace(", }", "}")))
            i += 1
            continue
        block = [line]
        i += 1
        while i < len(lines) and (lines[i].startswith((" ", "\t", ")", "]", "}")) or not lines[i].strip()):
            block.append(lines[i])
            i += 1
        while block and not block[-1].strip():
            block.pop()
        out.append(("block", "\n".join(block)))
    return out


def tuple_parts(body):
    """The parts of a tuple that is the whole body, or None."""
    b = body.strip()
    if not (b.startswith("(") and b.endswith(")")):
        return None
    depth, parts, last = 0, [], 1
    for i, ch in enumerate(b):
        if ch in "([{":
            depth += 1
        elif ch in ")]}":
            depth -= 1
            if depth == 0 and i != len(b) - 1:
                return None
        elif ch == "," and depth == 1:
            parts.append(b[last:i].strip())
            last = i + 1
    tail = b[last:-1].strip()
    if tail:
        parts.append(tail)
    return parts if len(parts) > 1 else None


def as_record(body, fields):
    """A tuple as a record of the fields; the tuple may stand below lets."""
    n = len(fields)
    m = re.match(r"(?s)^((?:.*\bin)?\s*)(\(.*\))\s*$", body)
    if not m:
        return None
    head, tup = m[1], m[2]
    # take the last top-level tuple
    parts = tuple_parts(tup)
    while parts is None or len(parts) < 1:
        return None
    while len(parts) < n:
        more = tuple_parts(parts[-1])
        if not more:
            return None
        parts = parts[:-1] + more
    if len(parts) > n:
        return None
    return head + "record { " + "; ".join(f"{f} = {p}" for f, p in zip(fields, parts)) + " }"


def substitute(body, subst):
    """Writes l.x for the variables of an invariant, but for those that the text binds again."""
    tokens = re.split(r"(\s+|[(){}\[\],;]|--[^\n]*)", body)
    depth, bound, out = 0, [], []
    i = 0
    while i < len(tokens):
        t = tokens[i]
        if t in ("(", "{", "["):
            depth += 1
            # a binder: names, then ':'
            j, names = i + 1, []
            while j < len(tokens) and (not tokens[j] or tokens[j].isspace() or re.fullmatch(WORD, tokens[j])):
                if tokens[j] and not tokens[j].isspace():
                    names.append(tokens[j])
                j += 1
            if names and j < len(tokens) and tokens[j] == ":":
                for name in names:
                    bound.append((name, depth - 1))
            out.append(t)
        elif t in (")", "}", "]"):
            depth -= 1
            bound = [(n, d) for n, d in bound if d <= depth]
            out.append(t)
        elif t and not t.isspace() and t not in (",", ";") and not t.startswith("--"):
            hidden = {n for n, _ in bound}
            m = re.fullmatch(r"((?:%s)|[\w']+₀)((?:\.[\w'-]+)*)(.*)" % WORD, t, re.S)
            if m and m[1] in subst and m[1] not in hidden:
                out.append(subst[m[1]] + m[2] + m[3])
            else:
                out.append(t)
        else:
            out.append(t)
        i += 1
    return "".join(out)


def convert(crate, path, names, said, module):
    with open(path, encoding="utf-8") as it:
        text = it.read()
    where = path
    parts = decls_of(text)
    uses, head, decls, order = [], [], {}, []
    for kind, t in parts:
        if kind == "use":
            if not re.search(r"\.Tie( as tie|\.)|\.Statement\.", t):
                uses.append(t)
        elif kind == "comment":
            if not order and not t.startswith("-- src/"):
                head.append(t)
        else:
            m = re.match(r"(?s)((?:abbrev |pub |unfoldable )*)(%s)\s*(?:\{[^}]*\}\s*)?:\s(.*)" % WORD, t)
            first = t.split("\n")[0]
            if m and not re.match(r"(?:%s)[^:]*=" % WORD, first):
                name = m[2]
                decls[name] = {"mods": m[1], "type": m[3].strip(), "unfolding": "", "clauses": [], "sig": t}
                order.append(name)
            elif t.startswith("unfolding"):
                decls[order[-1]]["unfolding"] = t
            else:
                m = re.match(r"(?s)(%s)\b(.*)" % WORD, t)
                if m and m[1] in decls:
                    decls[m[1]]["clauses"].append(t)
                else:
                    said.append(f"left: {where}: cannot read: {first[:80]}")
                    return False
    invariants, answers, helpers = [], [], []
    new_of = {}
    for name in order:
        d = decls[name]
        m = re.match(r"tie\.Need-(\S+)", d["type"])
        if m:
            old = plain(re.sub(r"^overflow-", "", m[1]).replace("slice-bounds-", "part-"))
            got = names.needs.get(old) or names.needs.get(plain(m[1])) or names.needs.get(plain(name))
            new_of[name] = got
    # helpers that take a place
    placed, inlined, at_places = {}, {}, set()
    for name in order:
        d = decls[name]
        m = re.match(r"(?s)tie\.([\w-]+)((?: (?:invariant|decreases)-[\w-]+)*)\s*→\s*(.*)", d["type"])
        if m and len(d["clauses"]) == 1:
            c = re.match(r"(?s)(%s)\s+(\w+)\s*=\s*(.*)" % WORD, d["clauses"][0])
            if c and m[3].startswith("tie."):
                at_places.add(name)
                continue
            if c and plain(m[1]) in names.by_plain:
                inlined[name] = (c[2], c[3], names.by_plain[plain(m[1])])
                continue

    def early(text):
        """Without the functions from place to place."""
        if at_places:
            for _ in range(6):
                text = re.sub(r"\((?:%s)\s+((?:%s)(?:\.before)*)\)" % ("|".join(map(re.escape, at_places)), WORD), r"\1", text)
            text = re.sub(r"(?<![\w'.-])(?:%s)\s+((?:%s)(?:\.before)*)(?![\w'-])" % ("|".join(map(re.escape, at_places)), WORD), r"\1", text)
        for n, (v, b, _) in inlined.items():
            def put(m, v=v, b=b):
                return "(" + re.sub(r"(?<![\w'.-])%s(?![\w'-])" % re.escape(v), m[1], b.strip()) + ")"
            for _ in range(3):
                text = re.sub(r"(?<![\w'.-])%s\s+((?:%s)(?:\.before)*)(?![\w'.-])" % (re.escape(n), WORD), put, text)
        return text

    for name in order:
        d = decls[name]
        if name in at_places or name in inlined:
            continue
        d["type"] = d["type"] if d["type"].startswith("tie.") else early(d["type"])
        d["clauses"] = [early(x) for x in d["clauses"]]
        m = re.match(r"(?s)\((%s) : tie\.([\w-]+)(?: (?:invariant|decreases)-[\w-]+)*\)\s*(?:→)?\s*(.*)" % WORD, d["type"])
        if m and plain(m[2]) in names.by_plain and len(d["clauses"]) == 1:
            c = re.match(r"(?s)(%s)\s+(\w+)((?:\s+[\w'{}-]+)*)\s*=\s*(.*)" % WORD, d["clauses"][0])
            if c:
                place = names.by_plain[plain(m[2])]
                t = Turner(names, where, said)
                t.aliases = {m[1]}
                kind = t.body(m[3], place)
                t = Turner(names, where, said)
                t.aliases = {c[2]}
                more = f"λ {c[3].strip()}. " if c[3].strip() else ""
                placed[name] = (kind.strip(), more + t.body(c[4], place).strip(), d["unfolding"], place)
    for name in order:
        d = decls[name]
        kind = d["type"]
        if name in placed or name in inlined or name in at_places or name.endswith("_spec") or name.endswith("-spec"):
            continue
        m = re.match(r"tie\.(invariant|decreases)-(loop\d*)", kind)
        if m or re.match(r"tie\.(InvT|MeasureT)", kind):
            which, loop = m[1], m[2]
            k = next((i for i, l in enumerate(names.loops) if plain(l[0][0]) == plain(loop)), None)
            if k is None or len(d["clauses"]) != 1:
                said.append(f"left: {where}: loop {loop}")
                continue
            (old, new), variables = names.loops[k]
            changed = names.changed[k]
            c = re.match(r"(?s)%s\s+(.*?)\s=\s(.*)" % re.escape(name), d["clauses"][0].replace(" =\n", " = \n"))
            params = c[1].split()
            want = [f"l.initial.{v}" if ch else f"l.{v}" for v, ch in zip(variables, changed)] + [f"l.{v}" for v, ch in zip(variables, changed) if ch]
            if len(want) != len(params):
                # a struct or an array that nothing reads any more is not among the variables
                plainv = [v for v in variables]
                got, w = {}, list(zip(variables, changed))
                names_of = [re.sub("₀$", "", p) for p in params]
                ok = True
                subst = {}
                for p in params:
                    if p == "_":
                        continue
                    base = re.sub("₀$", "", p).replace("-", "_")
                    if p.endswith("₀"):
                        ch = dict(w).get(base)
                        subst[p] = f"l.initial.{base}" if ch else f"l.{base}" if base in dict(w) else f"l.fn.{base}"
                    else:
                        subst[p] = f"l.{base}" if base in dict(w) else f"l.fn.{base}"
                said.append(f"look: {where}: variables of {loop}: {' '.join(params)} | {' '.join(variables)}")
            else:
                subst = {p: w for p, w in zip(params, want) if p != "_"}
            body = substitute(c[2].strip("\n"), subst)
            unf = d["unfolding"] + "\n" if d["unfolding"] else ""
            invariants.append(f"abbrev pub {which}-{new} : goal.{which}-{new}\n{unf}{which}-{new} l = {body.strip()}\n")
            continue
        m = re.match(r"tie\.Need-(\S+)", kind)
        if m:
            if m[1].startswith(("same-length", "same_length", "shape_of")):
                continue
            got = new_of[name]
            if got is None:
                body = d["clauses"][0].split("=", 1)[1].strip() if d["clauses"] else ""
                if not TRIVIAL.match(body):
                    said.append(f"left: {where}: no goal {m[1]}")
                    helpers.append("-- left: " + m[1] + "\n" + "\n".join("-- " + l for x in d["clauses"] for l in x.split("\n")) + "\n")
                continue
            new, place = got
            if len(d["clauses"]) != 1:
                said.append(f"left: {where}: clauses of {name}")
                continue
            c = re.match(r"(?s)%s\s+([^=]*?)\s*=\s(.*)" % re.escape(name), d["clauses"][0].replace(" =\n", " = \n"))
            if not c:
                said.append(f"left: {where}: clause of {name}")
                continue
            args = c[1].split()
            t = Turner(names, where, said)
            t.aliases = {args[0]} if args else {"c"}
            body = c[2]
            # helpers by place become lets
            used = [h for h in placed if re.search(r"(?<![\w'.-])%s(?![\w'-])" % re.escape(h), body)]
            more = True
            while more:
                more = False
                for h in list(used):
                    for h2 in placed:
                        if h2 not in used and re.search(r"(?<![\w'.-])%s(?![\w'-])" % re.escape(h2), placed[h][1]):
                            used.append(h2)
                            more = True
            body = t.body(body, place)
            if TRIVIAL.match(body.strip()) and not d["unfolding"]:
                continue
            lets, unfs = [], [d["unfolding"]] if d["unfolding"] else []
            for h in placed:
                if h in used:
                    kindh, bodyh, unfh, _ = placed[h]
                    lets.append(f"let {h} : {kindh} = {bodyh} in\n    ")
                    if unfh:
                        unfs.append(unfh)
            call = lambda s: re.sub(r"(?<![\w'.-])(%s) c(?![\w.'-])" % "|".join(map(re.escape, placed)), r"\1", s) if placed else s
            body = call(body)
            lets = [call(x) for x in lets]
            if plain(m[1]) in names.asked or plain(new) in names.asked:
                fields = names.asked.get(plain(m[1])) or names.asked.get(plain(new))
                rec = as_record(body, fields) if len(fields) > 1 else body
                if rec is None and re.match(r"(?:let\b|[\w(])", body.strip()) and not re.match(r"(rw|let|search|omega|grind|simp)\b", body.strip()):
                    places = [".1" * i + (".0" if i < len(fields) - 1 else "") for i in range(len(fields))]
                    rec = f"let all = {body.strip()} in\n    record {{ " + "; ".join(f"{f} = all{p}" for f, p in zip(fields, places)) + " }"
                if rec is None:
                    said.append(f"left: {where}: {new} is a record of {' '.join(fields)}")
                else:
                    body = rec
            # calls of other answers
            for other, its in new_of.items():
                if its and other != name:
                    body = re.sub(r"(?<![\w'.-])%s c(?![\w.'-])" % re.escape(other), its[0] + " c", body)
            unf = "".join(sorted(set(u + "\n" for u in unfs)))
            if unf.count("unfolding") > 1:
                words = []
                for u in unfs:
                    words += [w for w in u.split()[1:] if w not in words]
                unf = "unfolding " + " ".join(words) + "\n"
            more = "".join(" " + a for a in args[1:] if a != "κs")
            answers.append((new, f"pub {new} : goal.{new}\n{unf}{new} c{more} = {''.join(lets)}{body.strip()}\n"))
            continue
        # a lemma of the file's own
        helpers.append("\n".join([d["sig"]] + ([d["unfolding"]] if d["unfolding"] else []) + d["clauses"]) + "\n")
    folder = os.path.dirname(path)
    goal = f"use Rattle.{crate}.proofs.{module}"
    seen, kept = set(), []
    for n, t in answers:
        if n not in seen:
            seen.add(n)
            kept.append(t)
    if invariants:
        with open(os.path.join(folder, "Invariants.antt"), "w", encoding="utf-8") as it:
            it.write("\n".join(head + uses + [goal + ".Given as goal", ""]) + "\n" + "\n".join(invariants))
    if kept or [h for h in helpers if not h.startswith("-- left")]:
        with open(os.path.join(folder, "Answers.antt"), "w", encoding="utf-8") as it:
            it.write("\n".join(head + uses + [goal + ".Goals as goal", ""]) + "\n" + "\n".join(helpers + kept))
    os.remove(path)
    if not os.listdir(folder):
        os.rmdir(folder)
    return True


def main():
    top, crates = sys.argv[1], sys.argv[2:]
    said = []
    for crate in crates:
        with open(f"{top}/{crate}/names.json", encoding="utf-8") as it:
            data = json.load(it)
        for folder, _, files in os.walk(f"crates/{crate}/proofs"):
            if "Proof.antt" not in files or "+" in folder:
                continue
            path = os.path.join(folder, "Proof.antt")
            module = os.path.relpath(folder, f"crates/{crate}/proofs").replace("/", ".")
            key = f"Rattle-{crate}-proofs.{module}.Lts"
            if key not in data:
                said.append(f"left: {path}: no names")
                continue
            with open(path, encoding="utf-8") as it:
                if "Tie as tie" not in it.read():
                    said.append(f"left: {path}: by hand")
                    continue
            try:
                convert(crate, path, Names(data[key]), said, module)
            except Exception as e:
                said.append(f"left: {path}: {type(e).__name__} {e}")
    print("\n".join(said))


if __name__ == "__main__":
    main()
