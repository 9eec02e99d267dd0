"""Hangs."""

from __future__ import annotations

import os
from typing import Any, Dict, Hashable, Iterable, List, Optional, Sequence, Tuple, Union

from ._library import Thing, ask, warn
from .answers import Bounds, Explanation, Ordering, Record, Rule, Summary
from .graphs import CONNECTION, arrays_of_networkx, networkx
from .pattern import Pattern
from .picture import Picture
from .places import Places

#: A path, or an open file.
File = Union[str, "os.PathLike[str]", Any]

#: A line of the text form, as ``"+ m1 -carries-> truss"``, or its parts ``("+", "m1", "carries", "truss")``.
Change = Union[str, Tuple[str, Hashable, Union[str, int], Hashable]]


class Hang:
    """A rig as it hangs: items and connections, loaded into the proved engine.

    A hang does not change; :meth:`changed` gives another. Any number of threads may use one at once: while
    the engine works, the interpreter's lock is released. Ctrl-C takes effect between two calls, not within
    one.

    >>> from rizhavaan import Hang, Pattern
    >>> hang = Hang.from_text('''
    ... [graph]
    ... beam: beam
    ... m1: motor day 2025-08-11
    ... m2: motor day 2026-04-20
    ... front: truss
    ... beam -carries-> m1
    ... beam -carries-> m2
    ... m1 -carries-> front
    ... m2 -carries-> front
    ... ''')
    >>> lapsed = Pattern.from_text('''
    ... [query lapsed]
    ... motor: motor inspected ..2025-12-31
    ... truss: truss
    ... motor -carries-> truss
    ... ''')
    >>> for place in hang.find(lapsed):
    ...     print(place.motor, "above", place.truss)
    m1 above front
    >>> len(hang.changed(["- m1 -carries-> front"]).find(lapsed))
    0
    """

    __slots__ = ("_thing", "_summary", "_items", "_patterns", "_told_items", "_is_networkx")

    def __init__(self, *_: Any) -> None:
        raise TypeError("a Hang is made by Hang.from_text, from_files, from_csv, from_networkx or from_pandas")

    @classmethod
    def _of(cls, told: Dict[str, Any], thing: Thing, nodes: Optional[Sequence[Hashable]] = None) -> Hang:
        hang = object.__new__(cls)
        hang._thing = thing
        summary = told["summary"]
        counts = [{kind["kind"]: kind["count"] for kind in summary[of]} for of in ("itemKinds", "connectionKinds")]
        hang._summary = Summary(summary["items"], summary["connections"], *counts)
        hang._items = None if nodes is None else tuple(nodes)
        hang._is_networkx = nodes is not None
        hang._patterns = {pattern["title"]: Pattern._of(pattern) for pattern in told.get("patterns", ())}
        hang._told_items = None
        return hang

    @classmethod
    def _read(cls, sources: Iterable[Tuple[str, bytes]]) -> Tuple[Dict[str, Any], Hang]:
        names, lent = zip(*sources)
        told, thing = ask("read", lent=lent, names=names)
        return told, cls._of(told, thing)

    @classmethod
    def from_text(cls, text: Union[str, bytes], *more: Union[str, bytes]) -> Hang:
        """The hang of a text, and of more that belong to it: ``[kinds]``, ``[graph]``, ``[query]``,
        ``[changes]``."""
        names = [f"text {i}" for i in range(1, len(more) + 2)] if more else ["text"]
        told, hang = cls._read(zip(names, map(_bytes, (text, *more))))
        warn(told)
        return hang

    @classmethod
    def from_files(cls, *files: File) -> Hang:
        """The hang of files: texts, and tables where a name ends in ``.csv``, ``.tsv`` or ``.tab``."""
        if not files:
            raise TypeError("a hang has at least one file")
        told, hang = cls._read(_file(file, "text") for file in files)
        warn(told)
        return hang

    @classmethod
    def from_csv(cls, items: File, connections: File, *more: File) -> Hang:
        """The hang of two tables, of items with the columns ``name``, ``kind`` and ``day`` and of
        connections with ``from``, ``kind`` and ``to``, and of texts beside them."""
        tables = [_table(*_file(items, "items.csv")), _table(*_file(connections, "connections.csv"))]
        told, hang = cls._read([*tables, *(_file(file, "text") for file in more)])
        warn(told)
        return hang

    @classmethod
    def from_networkx(cls, graph: Any, kind: Any = "kind", day: Any = "day", connection: Any = "kind") -> Hang:
        """The hang that a networkx graph is: a node is an item, an edge a connection, an undirected one a
        connection in both directions.

        ``kind``, ``day`` and ``connection`` name attributes of nodes, of nodes and of edges, or are
        functions of node and attributes, or of both ends and attributes. A kind is a name, or a number from
        1 on; a node may have none, an edge without one has the kind ``edge``. A day is a date or its text.
        Edges of a multigraph with the same ends and kind are one connection. Places are of the graph's own
        nodes.

        >>> import networkx
        >>> from rizhavaan import Hang, Pattern
        >>> hang = Hang.from_networkx(networkx.karate_club_graph(), kind="club", connection=None)
        >>> triangle = Pattern.from_networkx(networkx.complete_graph(3))
        >>> len(hang.find(triangle)), len(hang.find(triangle, once=True))
        (270, 45)
        """
        nodes, asked, lent = arrays_of_networkx(graph, kind, day, connection)
        told, thing = ask("arrays", lent=lent, **asked)
        return cls._of(told, thing, nodes)

    @classmethod
    def from_pandas(
        cls,
        items: Any,
        connections: Any,
        name: str = "name",
        kind: Optional[str] = "kind",
        day: Optional[str] = "day",
        source: str = "from",
        connection: Optional[str] = "kind",
        target: str = "to",
    ) -> Hang:
        """The hang of two pandas DataFrames, of items and of connections; the arguments name their columns.
        Further columns of items are notes.

        With ``connection=None`` every connection has the kind ``edge``. Names and kinds are read as a table
        has them, as text.
        """
        columns = [column for column in (name, kind, day, source, connection, target) if column is not None]
        if not all(isinstance(column, str) for column in columns):
            raise TypeError("the name of a column is a str")
        first = _frame(items, {name: "name", kind: "kind", day: "day"})
        second = _frame(connections, {source: "from", connection: "kind", target: "to"})
        if connection is None:
            second = second.assign(kind=CONNECTION)
        tables = [(frame.to_csv(index=False, date_format="%Y-%m-%d")).encode() for frame in (first, second)]
        told, hang = cls._read(zip(("items.csv", "connections.csv"), tables))
        warn(told)
        return hang

    # What it has.

    def __len__(self) -> int:
        return self._summary.items

    @property
    def items(self) -> Tuple[Any, ...]:
        """The items by number: their names, or the nodes of the graph that it was made of."""
        if self._items is None:
            self._items = tuple(ask("names", self._thing)[0]["names"])
        return self._items

    @property
    def summary(self) -> Summary:
        return self._summary

    @property
    def patterns(self) -> Dict[str, Pattern]:
        """The patterns of its own text by name."""
        return dict(self._patterns)

    def _attributes(self, number: int) -> Dict[str, Any]:
        """Kind and day of an item, where it has them, and its notes."""
        if self._told_items is None:
            self._told_items = ask("items", self._thing)[0]["items"]
        told = self._told_items[number]
        return {name: told[name] for name in ("kind", "day", "notes") if told.get(name) is not None}

    def item(self, item: Hashable) -> Dict[str, Any]:
        """Kind, day and notes of an item, as far as it has them.

        >>> Hang.from_text("[graph]\\nm1: motor day 2025-08-11\\n").item("m1")
        {'kind': 'motor', 'day': '2025-08-11'}
        """
        try:
            return self._attributes(self.items.index(item))
        except ValueError:
            raise KeyError(item) from None

    def to_text(self) -> str:
        """All of it in the text form."""
        return ask("text", self._thing)[0]["text"]

    def to_networkx(self) -> Any:
        """A networkx MultiDiGraph: items with ``kind`` and ``day``, connections with their kind as key and
        as ``kind``."""
        graph = networkx().MultiDiGraph()
        items = self.items
        graph.add_nodes_from((item, self._attributes(number)) for number, item in enumerate(items))
        told, thing = ask("connections", self._thing)
        kinds, words = told["kinds"], thing.words()
        for source, kind, target in zip(words[::3], words[1::3], words[2::3]):
            graph.add_edge(items[source], items[target], key=kinds[kind], kind=kinds[kind])
        return graph

    def changed(self, changes: Optional[Iterable[Change]] = None) -> Hang:
        """The hang after changes; without any, after those of its own text. This one stays as it is.

        >>> hang = Hang.from_text("[graph]\\na: beam\\nb: motor\\nc: motor\\na -carries-> b\\n")
        >>> hang.changed(["+ a -carries-> c"]).summary.connections
        2
        >>> hang.changed([("-", "a", "carries", "b"), ("+", "a", "carries", "c")]).summary.connections
        1
        """
        asked = None if changes is None else [_change(change) for change in _several(changes)]
        told, thing = ask("changed", self._thing, changes=asked)
        after = Hang._of(told, thing, self._items if self._is_networkx else None)
        after._patterns = self._patterns
        return after

    # What is found in it.

    def _text(self, pattern: Union[Pattern, str]) -> Pattern:
        if isinstance(pattern, Pattern):
            return pattern
        if not isinstance(pattern, str):
            raise TypeError(f"a Pattern or the name of one is expected, not {type(pattern).__name__}")
        try:
            return self._patterns[pattern]
        except KeyError:
            known = ", ".join(self._patterns) or "none"
            reason = f"the hang's own text has no pattern {pattern!r}, of {known}; of a text, Pattern.from_text makes one"
            raise KeyError(reason) from None

    def find(
        self, pattern: Union[Pattern, str], once: bool = False, plan: str = "best", memory: Union[int, str, None] = None
    ) -> Places:
        """Every place of a pattern, or of the pattern of a name in the hang's own text.

        ``once`` lists mirror images once. ``plan`` is ``best`` (the text's, else a picked one), ``given``,
        ``picked``, ``drawn`` or ``cheapest``: any two list the same places, and differ in time and order.
        ``memory`` is what the run may take, in bytes or as ``"500M"``; else half of what is free.
        """
        pattern = self._text(pattern)
        told, thing = ask("find", self._thing, pattern=pattern.text, **_options(once, plan, memory))
        warn(told)
        return Places._of(self, pattern, told, thing)

    def count(
        self, pattern: Union[Pattern, str], once: bool = False, plan: str = "best", memory: Union[int, str, None] = None
    ) -> int:
        """How many places there are, without a list of them."""
        told, _ = ask("count", self._thing, pattern=self._text(pattern).text, **_options(once, plan, memory))
        warn(told)
        return told["places"]

    def check(self, plan: str = "best", memory: Union[int, str, None] = None) -> List[Rule]:
        """The patterns of its own text that expect something, each with what came."""
        told, _ = ask("check", self._thing, **_options(False, plan, memory))
        return [Rule(**rule) for rule in told["rules"]]

    def bounds(self, pattern: Union[Pattern, str], once: bool = False, plan: str = "best") -> Bounds:
        """What no run of the plan passes, proved before it runs."""
        told, _ = ask("bounds", self._thing, pattern=self._text(pattern).text, **_options(once, plan, None))
        return Bounds(told["listWords"], told["scratchWords"], told["cost"], told["largest"])

    def orderings(
        self, pattern: Union[Pattern, str], once: bool = False, memory: Union[int, str, None] = None
    ) -> List[Ordering]:
        """Every plan of one scan and extends with its cost, for patterns of at most 5 vertices."""
        told, _ = ask("orderings", self._thing, pattern=self._text(pattern).text, **_options(once, "best", memory))
        return [Ordering(tuple(o["plan"]), o["cost"], o["drawn"], o["cheapest"]) for o in told["orderings"]]

    def explain(
        self, pattern: Union[Pattern, str], once: bool = False, plan: str = "best", memory: Union[int, str, None] = None
    ) -> Explanation:
        """Which plan runs, what each operator was thought to do and did, and the plans that did not run."""
        told, _ = ask("explain", self._thing, pattern=self._text(pattern).text, **_options(once, plan, memory))
        records = [Record(record["operator"], record["rows"], record["cost"]) for record in told["records"]]
        return Explanation(told["text"], told["places"], told["cost"], told["plan"], told["planFrom"], records)

    def picture(self, places: Optional[Places] = None, all: bool = False) -> Picture:
        """The hang as it hangs, with places marked; more than 200 items are drawn where they are marked, or
        ``all`` are asked for."""
        if places is not None:
            if not isinstance(places, Places):
                raise TypeError(f"Places are marked, not {type(places).__name__}")
            if places.hang is not self:
                raise ValueError("these are places of another hang")
            return places.picture(all)
        return Picture(**ask("picture", self._thing, all=bool(all))[0])

    def __repr__(self) -> str:
        return f"<Hang of {self._summary.items} items and {self._summary.connections} connections>"

    def _repr_html_(self) -> str:
        from html import escape  # Only a notebook wants it, and it takes its time.

        def kinds(counts: Dict[str, int]) -> str:
            return escape(", ".join(f"{kind} {count}" for kind, count in list(counts.items())[:40]))

        items, connections = self._summary.items, self._summary.connections
        return (
            f"<table><tr><th>{items} items</th><td>{kinds(self._summary.item_kinds)}</td></tr>"
            f"<tr><th>{connections} connections</th><td>{kinds(self._summary.connection_kinds)}</td></tr></table>"
        )

    def __reduce__(self):
        raise TypeError("a Hang is not pickled; its to_text() is")


def _options(once: bool, plan: str, memory: Union[int, str, None]) -> Dict[str, Any]:
    if not isinstance(plan, str):
        raise TypeError(f"plan is a str, not {type(plan).__name__}")
    if isinstance(memory, bool) or not (memory is None or isinstance(memory, (int, str))):
        raise TypeError(f"memory is a number of bytes or a str, not {type(memory).__name__}")
    if isinstance(memory, int) and not 0 < memory < 1 << 63:
        raise ValueError(f"memory {memory} is no number of bytes")
    return {"once": bool(once), "plan": plan, "memory": memory}


def _bytes(text: Union[str, bytes]) -> bytes:
    if isinstance(text, str):
        return text.encode()
    if isinstance(text, bytes):
        return text
    raise TypeError(f"a text is a str, not {type(text).__name__}")


def _file(file: File, name: str) -> Tuple[str, bytes]:
    """The name and the bytes of a file."""
    if hasattr(file, "read"):
        named = getattr(file, "name", None)
        return (named if isinstance(named, str) else name), _bytes(file.read())
    path = os.fspath(file)
    with open(path, "rb") as opened:
        return os.fsdecode(path), opened.read()


def _table(name: str, content: bytes) -> Tuple[str, bytes]:
    """A table whatever its name is."""
    return (name if name.lower().endswith((".csv", ".tsv", ".tab")) else f"{name}.csv"), content


def _frame(frame: Any, columns: Dict[Optional[str], str]) -> Any:
    if not (hasattr(frame, "rename") and hasattr(frame, "to_csv")):
        raise TypeError(f"a pandas DataFrame is expected, not {type(frame).__name__}")
    return frame.rename(columns={column: named for column, named in columns.items() if column is not None})


def _several(changes: Any) -> Iterable[Any]:
    if isinstance(changes, (str, bytes)) or not hasattr(changes, "__iter__"):
        raise TypeError("changes are a list of them")
    return changes


def _change(change: Any) -> Any:
    if isinstance(change, str):
        return change
    if isinstance(change, (tuple, list)) and len(change) == 4:
        sign, source, kind, target = change
        if sign not in ("+", "-"):
            raise ValueError(f"a change has the sign '+' or '-', not {sign!r}")
        if isinstance(kind, bool) or not isinstance(kind, (str, int)):
            raise TypeError(f"a kind is a str or a number, not {type(kind).__name__}")
        return [sign, str(source), kind, str(target)]
    raise TypeError(f"a change is a line, or a sign, an item, a kind and an item, not {change!r}")
