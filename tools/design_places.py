#!/usr/bin/env python3
"""Where this repository could still be written in a newer form: a list of places for each point of
docs/DESIGN-PASS.md, over every .rt file under crates/*/src.

    tools/design_places.py            counts, a line a point
    tools/design_places.py 3          the places of point 3, a line each: file:line: what stands there
    tools/design_places.py --at COMMIT [POINT]    the same of an older commit
"""
import collections
import pathlib
import re
import subprocess
import sys


def files_of(commit):
    if commit is None:
        root = pathlib.Path(__file__).resolve().parent.parent
        for path in sorted((root / 'crates').glob('*/src/**/*.rt')):
            yield str(path.relative_to(root)), path.read_text()
        for path in sorted((root / 'crates').glob('*/proofs/**/Answers.antt')):
            yield str(path.relative_to(root)), path.read_text()
        return
    names = subprocess.run(['git', 'ls-tree', '-r', '--name-only', commit, 'crates'], capture_output=True, text=True, check=True).stdout.split('\n')
    for name in names:
        if re.fullmatch(r'crates/[a-z_]+/src/.*\.rt', name) or re.fullmatch(r'crates/[a-z_]+/proofs/.*Answers\.antt', name):
            yield name, subprocess.run(['git', 'show', f'{commit}:{name}'], capture_output=True, text=True, check=True).stdout


FN = re.compile(r'^(\s*)(pub(?:\([a-z]+\))? )?fn (\w+)', re.M)


def functions(text):
    """(line, name, comment, parameters, result, requires, body) of each function with a body."""
    for m in FN.finditer(text):
        line = text.count('\n', 0, m.start()) + 1
        before = text[:m.start()].split('\n')
        comment = []
        for row in reversed(before[:-1] if before and before[-1] == '' else before):
            row = row.strip()
            if row.startswith('//'):
                comment.append(row)
            elif row.startswith('#['):
                continue
            else:
                break
        i = text.index('(', m.end())
        depth, j = 0, i
        while True:
            depth += {'(': 1, ')': -1}.get(text[j], 0)
            j += 1
            if depth == 0:
                break
        parameters = text[i + 1:j - 1]
        body_at = re.compile(r'^' + m.group(1) + r'\{|\)[^\n;{]*\{$', re.M).search(text, j - 1)
        head_end = body_at.start() if body_at else len(text)
        head = text[j:head_end + 1]
        end = re.compile(r'^' + m.group(1) + r'\}', re.M).search(text, body_at.end() if body_at else j)
        body = text[body_at.end():end.start()] if body_at and end else ''
        result = re.match(r'\s*->\s*([^\n{]+?)\s*(?:$|\{|where)', head, re.M)
        requires = re.findall(r'requires (?:\w+ )?\{((?:[^{}]|\{[^{}]*\})*)\}', head)
        yield line, m.group(3), ' '.join(reversed(comment)), parameters, (result.group(1).strip() if result else ''), requires, body, text[m.start():(end.end() if end else m.end())]


def split_parameters(text):
    out, depth, part = [], 0, ''
    for ch in text:
        depth += {'(': 1, '[': 1, '<': 1, ')': -1, ']': -1, '>': -1}.get(ch, 0)
        if ch == ',' and depth == 0:
            out.append(part)
            part = ''
        else:
            part += ch
    out.append(part)
    return [p.strip() for p in out if p.strip()]


def places(commit):
    found = {k: [] for k in range(1, 9)}
    shapes = collections.defaultdict(list)
    clauses = collections.defaultdict(list)
    for name, text in files_of(commit):
        if name.endswith('.antt'):
            for m in re.finditer(r'^pub (\S+) : goal\.', text, re.M):
                found[8].append((name, text.count('\n', 0, m.start()) + 1, m.group(1)))
            continue
        rows = text.split('\n')
        for k, row in enumerate(rows, 1):
            bare = row.split('//')[0]
            if re.search(r'\bRefusal::[A-Z][A-Z_]+\b', bare):
                found[1].append((name, k, 'a refusal as a number: ' + bare.strip()))
            if re.search(r'\brefusal: u32,|\bkinds?: (\[u32|u32)|\bconst (SCAN|EXTEND|NO_KIND|UNDECIDED)\b', bare):
                found[1].append((name, k, 'a number for a kind or a refusal: ' + bare.strip()))
            if re.match(r'\s*(while|loop)\b', bare):
                indent = len(bare) - len(bare.lstrip())
                body = []
                for later in rows[k:]:
                    if later.strip() and len(later) - len(later.lstrip()) <= indent:
                        break
                    body.append(later)
                variables = set(re.findall(r'[a-z_]\w*', bare))
                counted = [v for v in variables if re.search(r'\b' + v + r' [+-]= 1;', '\n'.join(body))]
                found[3].append((name, k, ('counts ' + counted[0] + ': ' if counted else 'other: ') + bare.strip()))
            if re.match(r'\s*pub [a-z_]+: \[', bare) or re.match(r'\s*[a-z_]+: \[\w+; ', bare) and 'let' not in bare:
                found[6].append((name, k, 'an array in a struct: ' + bare.strip()))
            if re.search(r'\bfn\(|: bool,\s*$', bare) and not re.match(r'\s*pub [a-z_]+: bool', bare):
                found[7].append((name, k, bare.strip()))
        for line, fn, comment, parameters, result, requires, body, whole in functions(text):
            if re.search(r'\b(fault|faults)$|_fault', fn) and result in ('u32', 'u64', 'usize'):
                found[1].append((name, line, f'a number that says which fault: fn {fn} -> {result}'))
            elif re.search(r'// (1|19|0|[0-9]+) (where|unless|of)\b', comment) and result in ('u32', 'u64', 'usize'):
                found[1].append((name, line, f'a number that is a test: fn {fn} -> {result}'))
            if re.fullmatch(r'(larger|smaller|later|earlier|least|most|max|min|greater|lesser)', fn):
                found[4].append((name, line, f'an order by hand: fn {fn}'))
            if fn in ('none', 'empty', 'zero', 'refused', 'new', 'of', 'from') and 'Self' in result:
                found[4].append((name, line, f'a value made by hand: fn {fn}({parameters.strip()[:40]})'))
            if fn in ('eq', 'cmp', 'same', 'equal', 'copy_of', 'clone', 'print', 'show', 'write_number', 'add', 'sub'):
                found[4].append((name, line, f'by hand: fn {fn}'))
            n = len(split_parameters(parameters))
            if n >= 6:
                found[5].append((name, line, f'fn {fn} has {n} parameters'))
            crate = name.split('/')[1]
            for clause in requires:
                for part in re.split(r'×', clause):
                    part = re.sub(r'\s+', ' ', part).strip().strip('()')
                    if len(part) > 12:
                        clauses[crate, part].append((name, line, fn))
            tokens = re.findall(r'[A-Za-z_]\w*|\d+|[^\sA-Za-z_\d]', re.sub(r'//[^\n]*', '', body))
            if len(tokens) >= 24:
                names = {}
                shape = []
                for t in tokens:
                    if re.match(r'[A-Za-z_]', t) and t not in ('if', 'else', 'while', 'for', 'in', 'let', 'mut', 'return', 'match', 'as', 'loop'):
                        shape.append(names.setdefault(t, f'n{len(names)}'))
                    elif t.isdigit():
                        shape.append('0')
                    else:
                        shape.append(t)
                shapes[' '.join(shape)].append((name, line, fn))
    for group in shapes.values():
        if len(group) > 1:
            first = group[0]
            for name, line, fn in group[1:]:
                found[2].append((name, line, f'fn {fn} has the shape of {first[2]} ({first[0]}:{first[1]})'))
    for (crate, part), group in clauses.items():
        if len({g[2] for g in group}) >= 3:
            found[5].append((group[0][0], group[0][1], f'{len(group)} functions require {part}'))
    return found


WHAT = {
    1: 'numbers for refusals and kinds, numbers that are tests',
    2: 'functions of one shape',
    3: 'while and loop',
    4: 'order, equality, conversion and values written by hand',
    5: 'six parameters and more; a fact that three functions of a crate and more require',
    6: 'arrays in structs',
    7: 'a flag or a function pointer as a parameter',
    8: 'answers in proofs',
}


def main():
    args = sys.argv[1:]
    commit = None
    if args[:1] == ['--at']:
        commit, args = args[1], args[2:]
    found = places(commit)
    if args:
        for name, line, what in found[int(args[0])]:
            print(f'{name}:{line}: {what}')
        return
    for point, what in WHAT.items():
        extra = ''
        if point == 3:
            extra = f", of which {sum(1 for f in found[3] if f[2].startswith('counts'))} count by one"
        print(f'{point}: {len(found[point])} {what}{extra}')


main()
