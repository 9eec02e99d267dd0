"""How fast the package is, as ratios: beside the program on a rig, and beside networkx and igraph on the
same patterns. bench/run runs it.

Processor time counts, so that what else the machine does matters little. Ends with 1 where a bound is not
kept.
"""

import pathlib
import random
import resource
import statistics
import subprocess
import sys
import tempfile
import time

import networkx
from rizhavaan import Hang, Pattern

TOP = pathlib.Path(__file__).resolve().parents[3]
PROGRAM = TOP / "target" / "bin" / "rizhavaan"
ROUNDS = 7
#: `find` on the rig, of the program's time; seconds of from_networkx on 65,000 items.
FIND_BOUND = 1.3
GRAPH_BOUND = 2.0

BAY = """[query bay] # A braced bay.
a: top
b: top
c: bottom
d: bottom
a -chord-> b
c -chord-> d
a -post-> c
b -post-> d
a -brace-> d
"""


def rig():
    """65,000 items: trusses of braced bays, with motors on chains below every third bottom joint, and
    cables between places near each other."""
    numbers = random.Random(2)
    graph = networkx.DiGraph()

    def item(kind):
        name = f"{kind}-{len(graph):05}"
        graph.add_node(name, kind=kind, day=f"2026-0{1 + len(graph) % 9}-15")
        return name

    while len(graph) < 64_950:
        before = None
        for bay in range(numbers.randrange(8, 24)):
            top, bottom = item("top"), item("bottom")
            graph.add_edge(top, bottom, kind="post")
            if before:
                graph.add_edge(before[0], top, kind="chord")
                graph.add_edge(before[1], bottom, kind="chord")
                graph.add_edge(before[0], bottom, kind="brace")
            before = top, bottom
            if bay % 3 == 0:
                above = item("motor")
                graph.add_edge(bottom, above, kind="hangs")
                for _ in range(numbers.randrange(2, 8)):
                    below = item("link")
                    graph.add_edge(above, below, kind="link")
                    above = below
    names = list(graph)
    for _ in range(len(names) // 2):
        a = numbers.randrange(len(names) - 61)
        b = a + numbers.randrange(1, 61)
        if not graph.has_edge(names[a], names[b]):
            graph.add_edge(names[a], names[b], kind=f"cable {numbers.randrange(1, 34)}")
    return graph


def timed(call):
    """The median processor time of a call in seconds, and what it answered."""
    times = []
    for _ in range(ROUNDS):
        before = time.process_time()
        answer = call()
        times.append(time.process_time() - before)
    return statistics.median(times), answer


def process(*command):
    """The median processor time of a command in seconds, and what it wrote."""
    times = []
    for _ in range(ROUNDS):
        before = resource.getrusage(resource.RUSAGE_CHILDREN)
        words = [str(part) for part in command]
        wrote = subprocess.run(words, check=True, stdout=subprocess.PIPE, stderr=subprocess.DEVNULL).stdout
        after = resource.getrusage(resource.RUSAGE_CHILDREN)
        times.append(after.ru_utime + after.ru_stime - before.ru_utime - before.ru_stime)
    return statistics.median(times), wrote


def on_the_rig():
    """Lines of the table, and whether the bounds hold."""
    graph = rig()
    seconds, hang = timed(lambda: Hang.from_networkx(graph))
    size = f"{len(graph)} items and {graph.number_of_edges()} connections"
    lines = [f"| `Hang.from_networkx`, {size} | {seconds:.2f} s | at most {GRAPH_BOUND} s |"]
    kept = seconds <= GRAPH_BOUND
    with tempfile.TemporaryDirectory() as folder:
        path = pathlib.Path(folder) / "hang.txt"
        path.write_text(hang.to_text() + BAY, encoding="utf-8")
        program, wrote = process(PROGRAM, "find", path, "--count")
        listed, _ = process(PROGRAM, "find", path, "--csv")
        script = f"from rizhavaan import Hang; h = Hang.from_files({str(path)!r}); print(len(h.find('bay')))"
        whole, count = process(sys.executable, "-c", script)
        assert int(wrote) == int(count) > 10_000
        both, _ = timed(lambda: Hang.from_files(path).find("bay"))
        loaded = Hang.from_files(path)
        alone, places = timed(lambda: loaded.find("bay"))
        rows, _ = timed(lambda: list(places))
    lines += [
        f"| the program, `find` on the rig's text, {int(count)} places | {listed * 1000:.0f} ms | the measure: 1 |",
        f"| `from_files` and `find`, in a running interpreter | {both / listed:.2f} of it | at most {FIND_BOUND} |",
        f"| the same with the interpreter's start | {whole / listed:.2f} of it | |",
        f"| `find` by itself, on a hang that is loaded | {alone / listed:.2f} of it | |",
        f"| its named tuples | {rows / listed:.2f} of it | |",
    ]
    return lines, kept and both <= FIND_BOUND * listed


def patterns():
    yield "triangle", networkx.complete_graph(3)
    yield "square", networkx.cycle_graph(4)
    yield "square with a diagonal", networkx.Graph([(0, 1), (1, 2), (2, 3), (3, 0), (0, 2)])
    yield "four, all joined", networkx.complete_graph(4)


def graphs():
    yield "Les Misérables, 77 vertices, 254 edges", networkx.les_miserables_graph()
    yield "power law, 200 vertices, 975 edges", networkx.barabasi_albert_graph(200, 5, seed=1)


def beside_others():
    """Every place, by the three: networkx's monomorphisms and igraph's LAD, which both list them too."""
    try:
        import igraph
    except ImportError:
        igraph = None
    lines = []
    for title, graph in graphs():
        graph = networkx.convert_node_labels_to_integers(networkx.Graph(graph.edges()))
        hang = Hang.from_networkx(graph)
        other = igraph and igraph.Graph(n=len(graph), edges=list(graph.edges()))
        for name, drawn in patterns():
            asked = Pattern.from_networkx(drawn)
            own, places = timed(lambda: list(hang.find(asked)))
            start = time.process_time()
            matcher = networkx.algorithms.isomorphism.GraphMatcher(graph, drawn)
            count = sum(1 for _ in matcher.subgraph_monomorphisms_iter())
            slower = (time.process_time() - start) / own
            assert count == len(places), (title, name, count, len(places))
            lad = "not installed"
            if igraph:
                small = igraph.Graph(n=len(drawn), edges=list(drawn.edges()))
                start = time.process_time()
                found = other.get_subisomorphisms_lad(small, induced=False)
                lad = f"{(time.process_time() - start) / own:,.0f}"
                assert len(found) == len(places), (title, name, len(found), len(places))
            lines.append(f"| {title} | {name} | {len(places):,} | {own * 1000:.1f} | {slower:,.0f} | {lad} |")
    return lines


def main():
    if not PROGRAM.is_file():
        sys.exit(f"bench: {PROGRAM} is missing: cli/build makes it")
    lines, kept = on_the_rig()
    print("| on the rig | processor time | bound |\n|---|---|---|")
    print("\n".join(lines))
    print("\n| graph | pattern | places | `find` and its tuples, ms | networkx, times that | igraph's LAD, times that |")
    print("|---|---|---:|---:|---:|---:|")
    print("\n".join(beside_others()))
    sys.exit(not kept)


if __name__ == "__main__":
    main()
