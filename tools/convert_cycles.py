#!/usr/bin/env python3
"""Turns the Proof.antt of a recursion or a cycle of calls into Invariants.antt and Answers.antt, as convert_proofs.py does the others.

usage: tools/convert_cycles.py NAMES CRATE FOLDER [OPEN]      at the top of the repository

FOLDER is the proof's, below crates/CRATE/proofs, as numbers/+need_from. NAMES/CRATE/names.json is what `rattle check --generated NAMES/CRATE --old-names` writes of the crate.
OPEN is a file of names, as what `rt check --start` writes: an answer to a goal that it doesn't name is left out. A line that begins 'left:' names a place to mend by hand.
"""
import json
import os
import re
import sys

sys.path.insert(0, os.path.dirname(os.path.abspath(__file__)))
from convert_proofs import PATH, TRIVIAL, WORD, Names, Turner, decls_of, plain, substitute

GOAL = re.compile(r"(?s)\(t : ℕ\)\s*→\s*(%s)\.Need-(\S+)\s.*" % WORD)
# A lemma of the file's own over what is known at a place, with further arguments.
PLACED = re.compile(r"(?s)\(t : ℕ\)\s*\((%s) : (%s)\.([\w-]+)[^()]*(?:\([^()]*\)[^()]*)*\)\s*(.*)" % (WORD, WORD))


class InCycle(Turner):
    """Today the measure's fact has no name, and what was `requires.1` is `requires`."""

    def path(self, head, rest, place):
        segs = [s for s in rest.split(".") if s]
        while segs and segs[0] == "before":
            segs.pop(0)
        if segs[:1] in (["requires"], ["pre"]):
            if segs[1:2] == ["0"] and len(segs) == 2:
                return "THE-MEASURE"
            if segs[1:2] == ["1"]:
                return super().path(head, "." + ".".join([segs[0], *segs[2:]]), place)
        arm = self.arm(segs, place)
        return arm or super().path(head, rest, place)

    def arm(self, segs, place):
        """A fact of an arm of a match, which now stands in a step of its own."""
        at = place
        while at and segs:
            p = self.names.places[at]
            found = self.names.arms.get(at)
            if found:
                step, _, fields = found
                for new, old, tail in fields:
                    if plain(old) == plain(segs[0]) and tail and segs[1 : 1 + len(tail)] == tail:
                        return ".".join(["c", step, new, *segs[1 + len(tail) :]])
            at = p[1]
        return None


def without_measure(body):
    body = re.sub(r",\s*THE-MEASURE(?![\w.])", "", body)
    body = re.sub(r"THE-MEASURE,\s*", "", body)
    body = re.sub(r", c\.type_inv(?![\w.])", "", body)
    return re.sub(r"omega \(arith\)", "omega arith", body)


def names_of(data, folder, crate):
    module = folder.replace("/", ".")
    key = f"Rattle-{crate}-proofs.{module}.Lts-"
    out = {}
    for k, v in data.items():
        if k.startswith(key):
            names = Names(v)
            names.arms = {p[0]: a for p, a in zip(v["places"], v["arms"]) if a}
            names.stem = v["stem"]
            out[plain(k[len(key) :])] = (k[len(key) :], names)
    return module, out


def measure(body, params):
    """A measure of the tuple of the arguments, with their names."""

    def arg(m):
        n = m[1].count(".1")
        last = n == len(params) - 1
        return "l." + (params[n] if last or m[2] else "?")

    return re.sub(r"\ba((?:\.1)*)(\.0)?(?![\w])", arg, body)


def main():
    top, crate, folder = sys.argv[1:4]
    wanted = None
    if len(sys.argv) > 4:
        with open(sys.argv[4], encoding="utf-8") as it:
            wanted = set(re.findall(r"(?m)^\s*pub (\S+) : goal\.", it.read()))
    with open(f"{top}/{crate}/names.json", encoding="utf-8") as it:
        module, functions = names_of(json.load(it), folder, crate)
    where = f"crates/{crate}/proofs/{folder}"
    with open(f"{where}/Proof.antt", encoding="utf-8") as it:
        parts = decls_of(it.read())
    said, uses, head, decls = [], [], [], {}
    for kind, text in parts:
        if kind == "use":
            if not re.search(r"\.(Reads|Kinds|Lts-\w+) as |borrow\.Fn\.|\.\{statement\}|\.Tie\.\{close\}", text):
                uses.append(text)
        elif kind == "comment":
            if not decls:
                head.append(text)
        else:
            first = text.split("\n")[0]
            m = re.match(r"(?s)((?:abbrev |pub |unfoldable )*)(\S+)\s*:\s(.*)", text)
            if m and not re.match(r"\S+ [^:]*=", first):
                decls[m[2]] = {"type": m[3].strip(), "unfolding": "", "clauses": [], "sig": text}
            elif text.startswith("unfolding"):
                decls[[*decls][-1]]["unfolding"] = text
            else:
                decls[re.match(r"\S+", text)[0]]["clauses"].append(text)

    def function(alias):
        for name in functions:
            if plain(alias).startswith(name + "-"):
                return functions[name]
        raise KeyError(alias)

    def clause(name):
        c = decls[name]["clauses"]
        if len(c) != 1:
            said.append(f"left: {where}: clauses of {name}")
            return None, None
        m = re.match(r"(?s)%s((?:\s+[^\s=]+)*)\s*=\s(.*)" % re.escape(name), c[0].replace(" =\n", " = \n"))
        return m[1].split(), m[2].strip("\n")

    answer_of = {}
    for name, d in decls.items():
        m = GOAL.match(d["type"])
        if m:
            fn, names = function(m[1])
            old = plain(re.sub(r"^overflow-", "", m[2]).replace("slice-bounds-", "part-").replace("bounds-1-", "index-1-"))
            got = names.needs.get(old) or names.needs.get(plain(m[2])) or names.needs.get(plain(m[2].replace("bounds-1-", "index-")))
            answer_of[name] = got and (names.stem + got[0], got[1])
    placed, invariants, measures, answers, helpers = {}, [], [], [], []
    for name, d in decls.items():
        kind = d["type"]
        if name.startswith("μ") and "Measures" in kind:
            args, body = clause(name)
            fn, names = functions[plain(re.sub("^μ[-_]", "", name))]
            params = [p for k, v in names.params.items() if k.split("::")[-1] == fn for p in v]
            if not params:
                params = next(p for _, n in functions.values() for k, p in n.params.items() if k.split("::")[-1] == fn)
            measures.append(f"abbrev pub decreases-{fn} : goal.decreases-{fn}\ndecreases-{fn} l = {measure(body.strip(), params)}\n")
            continue
        if re.search(r"(?:^| )In \d+ |\.Claims$", kind) or re.match(r"\{M : Type", kind):
            continue
        m = re.match(r"(%s)\.(invariant|decreases)-(loop\d*)$" % WORD, kind)
        if m:
            fn, names = function(m[1])
            params, body = clause(name)
            k = next(i for i, l in enumerate(names.loops) if plain(l[0][0]) == plain(m[3]))
            (_, new), variables = names.loops[k]
            changed = names.changed[k]
            want = [f"l.initial.{v}" if ch else f"l.{v}" for v, ch in zip(variables, changed)] + [f"l.{v}" for v, ch in zip(variables, changed) if ch]
            if len(want) != len(params):
                said.append(f"look: {where}: variables of {name}: {' '.join(params)} | {' '.join(variables)}")
                ch_of = dict(zip(variables, changed))
                want = []
                for p in params:
                    base = p.rstrip("₀").replace("-", "_")
                    want.append(f"l.initial.{base}" if p.endswith("₀") and ch_of.get(base) else f"l.{base}")
            new = names.stem + new
            body = substitute(body, dict(zip(params, want)))
            invariants.append(f"abbrev pub {m[2]}-{new} : goal.{m[2]}-{new}\n{m[2]}-{new} l = {body.strip()}\n")
            continue
        if name in answer_of:
            continue
        m = PLACED.match(kind)
        if m:
            fn, names = function(m[2])
            place = names.by_plain.get(plain(m[3]))
            args, body = clause(name)
            if place and args:
                t = InCycle(names, where, said, {})
                t.aliases = {m[1]}
                kind = t.body(m[4], place).strip()
                t = InCycle(names, where, said, {})
                t.aliases = {args[1]}
                lam = f"λ {' '.join(args[2:])}. " if args[2:] else ""
                kind = re.sub(r"^→\s*", "", kind)
                placed[name] = f"let {name} : {kind} = {lam}{without_measure(t.body(body, place)).strip()} in\n    "
                continue
        helpers.append("\n".join([d["sig"]] + ([d["unfolding"]] if d["unfolding"] else []) + d["clauses"]) + "\n")
    seen = set()
    for name, got in answer_of.items():
        d = decls[name]
        m = GOAL.match(d["type"])
        if m[2].startswith(("same-length", "same_length")):
            continue
        args, body = clause(name)
        if body is None:
            continue
        if got is None:
            if not TRIVIAL.match(body.strip()):
                said.append(f"left: {where}: no goal {m[2]} of {name}: {body.strip()[:100]}")
            continue
        new, place = got
        if new in seen or TRIVIAL.match(body.strip()) or (wanted is not None and new not in wanted):
            seen.add(new)
            continue
        seen.add(new)
        fn, names = function(m[1])
        t = InCycle(names, where, said, {})
        t.aliases = {args[1]}
        # `κs`, and the end of a path, are dropped; `let a = c.before.. in` goes too.
        body = without_measure(t.body(body, place)).strip()
        lets = ""
        for h in placed:
            if re.search(r"(?<![\w'.-])%s(?![\w'-])" % re.escape(h), body):
                lets += placed[h]
                body = re.sub(r"(?<![\w'.-])%s t c(?![\w'.-])" % re.escape(h), h, body)
        for other, its in answer_of.items():
            if its and other != name:
                body = re.sub(r"(?<![\w'.-])%s t c(?![\w'.-])" % re.escape(other), its[0] + " t c", body)
        unf = d["unfolding"] + "\n" if d["unfolding"] else ""
        answers.append(f"pub {new} : goal.{new}\n{unf}{new} t c = {lets}{body}\n")
    if wanted is not None:
        for it in sorted(wanted - seen):
            said.append(f"open: {it}")
        for it in sorted(wanted & seen):
            if not any(f"pub {it} :" in a for a in answers):
                said.append(f"open, and was trivial: {it}")
    goal = f"use Rattle.{crate}.proofs.{module}"
    with open(f"{where}/Invariants.antt", "w", encoding="utf-8") as it:
        it.write("\n".join([*head, *uses, goal + ".Given as goal", ""]) + "\n" + "\n".join(measures + invariants))
    if answers or helpers:
        with open(f"{where}/Answers.antt", "w", encoding="utf-8") as it:
            it.write("\n".join([*head, *uses, goal + ".Goals as goal", ""]) + "\n" + "\n".join(helpers + answers))
    os.remove(f"{where}/Proof.antt")
    print("\n".join(said))


if __name__ == "__main__":
    main()
