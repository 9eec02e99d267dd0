"""Random hangs and patterns as text, for the tests: names of people, kinds by name and by number, days, pairs, plans, several patterns."""

ITEM_KINDS = ["truss", "pin", "chain motor", "Träger"]
CONNECTION_KINDS = ["carries", "safety wire", "bolted-to"]
NAMES = ["m", "Motor ", "x++", "Träger-", "0a", "a#", "π"]


def quoted(name):
    return f'"{name}"' if " " in name or "#" in name else name


class Hang:
    """A hang of up to a dozen items or, where it is large, some hundreds."""

    def __init__(self, random, large=False):
        self.random = random
        self.by_name = random.random() < 0.6
        self.kinds = random.randint(1, len(ITEM_KINDS))
        count = random.randint(60, 300) if large else random.randint(2, 12)
        self.items = [self.item(number) for number in range(count)]
        self.labels = random.randint(1, len(CONNECTION_KINDS))
        ends = [(random.randrange(count), random.randint(1, self.labels), random.randrange(count)) for _ in range(random.randint(count, 6 * count))]
        self.edges = list(dict.fromkeys(ends))
        self.patterns = [self.pattern() for _ in range(random.choice([1, 1, 1, 2, 3]))]

    def item(self, number):
        name = f"{self.random.choice(NAMES)}{number}" if self.random.random() < 0.7 else None
        return name, self.random.randint(0, self.kinds), self.random.choice([0, 0, 9000, 9001, 9002, 9003])

    def pattern(self):
        random = self.random
        count = random.randint(2, 5)
        vertices = []
        for v in range(count):
            days = random.choice(["", "", "", "", "", "", " inspected 9001..", " inspected ..9002", " inspected 0..9001", " inspected 2024-08-23..2024-08-24"])
            vertices.append((f"v{v}" if random.random() < 0.8 else None, random.choice([0, 0, 0, random.randint(0, self.kinds)]), days))
        edges = []
        for v in range(1, count):
            ends = random.sample([v, random.randrange(v)], 2)
            edges.append((ends[0], random.randint(0, self.labels), ends[1]))
        for _ in range(random.randint(0, 2)):
            a, b = random.randrange(count), random.randrange(count)
            if a != b:
                edges.append((a, random.randint(0, self.labels), b))
        pairs = [random.sample(range(count), 2)] if random.random() < 0.3 else []
        return vertices, list(dict.fromkeys(edges)), pairs

    def kind(self, kind):
        if kind == 0:
            return ""
        return f" {quoted(ITEM_KINDS[kind - 1])}" if self.by_name else f" label {kind}"

    def label(self, label):
        if label == 0:
            return "any"
        return quoted(CONNECTION_KINDS[label - 1]) if self.by_name else str(label)

    def thing(self, name, kind, rest):
        if name is None:
            return f"vertices 1{self.kind(kind)}{rest}"
        if self.by_name and kind and self.random.random() < 0.5:
            return f"{quoted(name)}:{self.kind(kind)}{rest}"
        return f"vertex {quoted(name)}{self.kind(kind)}{rest}"

    def text(self):
        lines = []
        if self.by_name:
            lines += ["[kinds]", *(f"item {quoted(kind)}" for kind in ITEM_KINDS), *(f"connection {quoted(kind)}" for kind in CONNECTION_KINDS)]
        lines.append("[graph]")
        lines += [self.thing(name, kind, f" day {day}" if day else "") for name, kind, day in self.items]
        end = lambda things, i: str(i) if things[i][0] is None else quoted(things[i][0])
        lines += [f"{end(self.items, a)} -{self.label(k)}-> {end(self.items, b)}" for a, k, b in self.edges]
        for number, (vertices, edges, pairs) in enumerate(self.patterns):
            sentence = " # What <b>is</b> \"asked\"." if self.random.random() < 0.3 else ""
            lines.append((f"[query p{number}]" if len(self.patterns) > 1 else "[query]") + sentence)
            lines += [self.thing(name, kind, days) for name, kind, days in vertices]
            lines += [f"{end(vertices, a)} -{self.label(k)}-> {end(vertices, b)}" for a, k, b in edges]
            lines += [f"{end(vertices, a)} < {end(vertices, b)}" for a, b in pairs]
            if self.random.random() < 0.3:
                a, k, b = edges[0]
                lines += ["[plan]" if len(self.patterns) == 1 else f"[plan p{number}]", f"scan {end(vertices, a)} -{self.label(k)}-> {end(vertices, b)}"]
                covered, left = {a, b}, set(range(len(vertices))) - {a, b}
                while left:
                    v = next(v for v in sorted(left) if any({v} <= {x, y} and ({x, y} - {v}) <= covered for x, _, y in edges))
                    lines.append(f"extend {end(vertices, v)}")
                    covered.add(v)
                    left.remove(v)
        return "\n".join(lines) + "\n"
