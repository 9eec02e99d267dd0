"""Patterns."""

from __future__ import annotations

from typing import Any, Optional, Tuple

from ._library import ask, warn
from .graphs import pattern_of_networkx


class Pattern:
    """What to look for: vertices with kinds and days, connections between them, and pairs that keep an order.

    A pattern stands for itself; only where it is looked for must a hang know its kinds.

    >>> from rizhavaan import Pattern
    >>> two = Pattern.from_text('''
    ... [query two-motors] # A truss on two motors.
    ... truss: truss
    ... left: motor
    ... right: motor
    ... left -carries-> truss
    ... right -carries-> truss
    ... left < right
    ... ''')
    >>> two.name, two.sentence, two.vertices
    ('two-motors', 'A truss on two motors.', ('truss', 'left', 'right'))
    """

    __slots__ = ("_text", "_told")

    def __init__(self, *_: Any) -> None:
        raise TypeError("a Pattern is made by Pattern.from_text or Pattern.from_networkx")

    @classmethod
    def _of(cls, told: dict) -> Pattern:
        pattern = object.__new__(cls)
        pattern._text = told["text"]
        pattern._told = told
        return pattern

    @classmethod
    def from_text(cls, text: str, name: Optional[str] = None) -> Pattern:
        """The pattern of a text: ``[query]``, and its ``[plan]`` where it has one; of several, the one of a
        name.

        >>> rules = "[query a]\\nvertices 2\\n0 -any-> 1\\n[query b]\\nvertices 2\\n0 -carries-> 1\\n"
        >>> print(Pattern.from_text(rules, "b").text, end="")
        [query b]
        vertices 2 label 0  # 0 to 1
        0 -carries-> 1
        """
        if not isinstance(text, str):
            raise TypeError(f"the text of a pattern is a str, not {type(text).__name__}")
        if not (name is None or isinstance(name, str)):
            raise TypeError(f"the name of a pattern is a str, not {type(name).__name__}")
        told, _ = ask("pattern", text=text, name=name)
        warn(told)
        return cls._of(told)

    @classmethod
    def from_networkx(
        cls,
        graph: Any,
        kind: Any = "kind",
        inspected: Any = "inspected",
        connection: Any = "kind",
        name: Optional[str] = None,
        sentence: Optional[str] = None,
    ) -> Pattern:
        """The pattern that a networkx graph is: a node is a vertex, an edge a connection.

        ``kind``, ``inspected`` and ``connection`` name attributes of nodes, of nodes and of edges, or are
        functions of node and attributes, or of both ends and attributes. What has no kind fits every kind.
        ``inspected`` is ``"2025-01-01..2025-12-31"``, either end left out where it is open, or the two
        days. An undirected edge asks for both directions.

        >>> import networkx
        >>> fork = networkx.DiGraph()
        >>> fork.add_node("truss", kind="truss")
        >>> fork.add_edge("motor", "truss", kind="carries")
        >>> print(Pattern.from_networkx(fork).text, end="")
        [query]
        truss: truss
        vertex motor
        motor -carries-> truss
        """
        drawn = pattern_of_networkx(graph, kind, inspected, connection)
        drawn.update(name=_word("name", name), sentence=_word("sentence", sentence))
        told, _ = ask("write_pattern", pattern=drawn)
        warn(told)
        return cls._of(told)

    @property
    def text(self) -> str:
        """The pattern in the text form."""
        return self._text

    @property
    def name(self) -> Optional[str]:
        return self._told["name"]

    @property
    def sentence(self) -> Optional[str]:
        """What the comment behind its head says."""
        return self._told["sentence"]

    @property
    def vertices(self) -> Tuple[str, ...]:
        """The names of its vertices, or their numbers."""
        return tuple(self._told["names"])

    @property
    def images(self) -> int:
        """How often each place stands in the list, since the pattern looks the same with vertices
        exchanged; ``once=True`` lists it once."""
        return self._told["images"]

    def __len__(self) -> int:
        return len(self._told["names"])

    def __eq__(self, other: object) -> bool:
        return self._text == other._text if isinstance(other, Pattern) else NotImplemented

    def __hash__(self) -> int:
        return hash(self._text)

    def __str__(self) -> str:
        return self._text

    def __repr__(self) -> str:
        return f"<Pattern {self.name or 'query'}: {', '.join(self.vertices)}>"

    def __reduce__(self):
        return Pattern.from_text, (self._text,)

    def _repr_html_(self) -> str:
        from html import escape  # Only a notebook wants it, and it takes its time.

        return f"<pre>{escape(self._text)}</pre>"


def _word(what: str, value: Optional[str]) -> Optional[str]:
    if not (value is None or isinstance(value, str)):
        raise TypeError(f"the {what} of a pattern is a str, not {type(value).__name__}")
    return value
