"""From and to the graphs of networkx. Names, kinds and days are handed on as they are; the core says what
is wrong with them."""

from __future__ import annotations

import datetime
from array import array
from typing import Any, Callable, Dict, Hashable, Iterator, List, Optional, Tuple, Union

#: The name of an attribute, or a function that gives its value.
Attribute = Union[str, Callable[..., Any], None]

#: The kind of a connection that says none.
CONNECTION = "edge"

#: As the library has it: the kind of an item that has none.
_NO_KIND = 0xFFFF_FFFF


def missing(module: str) -> ImportError:
    return ImportError(f"{module} is not installed: pip install {module}, or apt-get install python3-{module}")


def networkx() -> Any:
    try:
        import networkx
    except ImportError as error:
        raise missing("networkx") from error
    return networkx


def _graph(graph: Any) -> Any:
    """Refuses what has not the methods of a networkx graph."""
    for method in ("nodes", "edges", "is_directed", "is_multigraph"):
        if not hasattr(graph, method) or isinstance(graph, type):
            raise TypeError(f"a networkx graph is expected, not {type(graph).__name__}")
    return graph


def _getter(what: str, attribute: Attribute, ends: int) -> Callable[..., Any]:
    """A function of the ends and the attributes of a node or an edge."""
    if attribute is None:
        return lambda *_: None
    if callable(attribute):
        return attribute
    if not isinstance(attribute, str):
        raise TypeError(f"{what} is the name of an attribute or a function, not {type(attribute).__name__}")
    if ends == 1:
        return lambda _, data: data.get(attribute)
    return lambda _, __, data: data.get(attribute)


def _kind(value: Any, of: Any) -> Union[str, int, None]:
    if value is None or isinstance(value, str):
        return value or None
    # A number of numpy or pandas is one too.
    if not isinstance(value, bool) and hasattr(value, "__index__"):
        number = value.__index__()
        if number > 0:
            return number
        raise ValueError(f"{of!r} has kind {number}: kinds are names, or numbers from 1 on")
    raise TypeError(f"{of!r} has kind {value!r}: a kind is a str or a number, not {type(value).__name__}")


def _day(value: Any, of: Any) -> str:
    """A day as the text form has it, or nothing."""
    if value is None or value != value:
        return ""
    if isinstance(value, datetime.datetime):
        return value.date().isoformat()
    if isinstance(value, datetime.date):
        return value.isoformat()
    if isinstance(value, str):
        return value
    if not isinstance(value, bool) and hasattr(value, "__index__"):
        return str(value.__index__())
    raise TypeError(f"{of!r} has day {value!r}: a day is a date, its text or a number, not {type(value).__name__}")


class _Kinds:
    """Kinds by their index, in the order in which they are met."""

    def __init__(self) -> None:
        self.index: Dict[Union[str, int], int] = {}

    def __call__(self, kind: Union[str, int, None]) -> int:
        return _NO_KIND if kind is None else self.index.setdefault(kind, len(self.index))

    def list(self) -> List[Union[str, int]]:
        return list(self.index)


def _ends(graph: Any) -> Iterator[Tuple[Hashable, Hashable, Dict[str, Any]]]:
    """The edges of a graph with their attributes; an undirected one, but a loop, in both directions."""
    edges = graph.edges(data=True)
    if graph.is_directed():
        yield from edges
        return
    for a, b, data in edges:
        yield a, b, data
        if a != b:
            yield b, a, data


def arrays_of_networkx(
    graph: Any, kind: Attribute, day: Attribute, connection: Attribute
) -> Tuple[List[Hashable], Dict[str, Any], List[Any]]:
    """The nodes, and the arrays of a hang that the graph is: what is asked, and what is lent."""
    _graph(graph)
    kind_of, day_of = _getter("kind", kind, 1), _getter("day", day, 1)
    connection_of = _getter("connection", connection, 2)
    kinds, connection_kinds = _Kinds(), _Kinds()
    nodes: List[Hashable] = []
    item_kinds, days = array("I"), []
    for node, data in graph.nodes(data=True):
        nodes.append(node)
        item_kinds.append(kinds(_kind(kind_of(node, data), node)))
        days.append(_day(day_of(node, data), node))
    number = {node: i for i, node in enumerate(nodes)}
    connections = array("I")
    for a, b, data in _ends(graph):
        label = _kind(connection_of(a, b, data), (a, b))
        connections.extend((number[a], connection_kinds(CONNECTION if label is None else label), number[b]))
    asked = {
        "names": [str(node) for node in nodes],
        "days": days if any(days) else [],
        "itemKinds": kinds.list(),
        "connectionKinds": connection_kinds.list(),
    }
    return nodes, asked, [item_kinds, connections]


def pattern_of_networkx(graph: Any, kind: Attribute, inspected: Attribute, connection: Attribute) -> Dict[str, Any]:
    """A pattern as the library writes and reads it in JSON."""
    _graph(graph)
    kind_of, days_of = _getter("kind", kind, 1), _getter("inspected", inspected, 1)
    connection_of = _getter("connection", connection, 2)
    nodes = list(graph.nodes(data=True))
    vertices = [
        {"name": str(node), "kind": _kind(kind_of(node, data), node), "days": _days(days_of(node, data), node)}
        for node, data in nodes
    ]
    number = {node: i for i, (node, _) in enumerate(nodes)}
    edges = [
        {"from": number[a], "to": number[b], "kind": _kind(connection_of(a, b, data), (a, b))}
        for a, b, data in _ends(graph)
    ]
    return {"vertices": vertices, "edges": edges}


def _days(value: Any, of: Any) -> Optional[Dict[str, str]]:
    """The first and the last day that a vertex asks for."""
    if value is None:
        return None
    if isinstance(value, str):
        first, dots, last = value.partition("..")
        if not dots:
            raise ValueError(f"{of!r} is inspected {value!r}: write FIRST..LAST, either left out where it is open")
        return {"first": first, "last": last}
    if isinstance(value, (tuple, list)) and len(value) == 2:
        return {"first": _day(value[0], of), "last": _day(value[1], of)}
    raise TypeError(f"{of!r} is inspected {value!r}: a text FIRST..LAST or two days, not {type(value).__name__}")
