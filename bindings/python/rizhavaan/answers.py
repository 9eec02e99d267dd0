"""What is answered beside a list."""

from __future__ import annotations

from typing import Dict, List, NamedTuple, Optional, Tuple


class Record(NamedTuple):
    """What an operator of the plan did: the rows of its result, and what it added to the cost."""

    operator: str
    rows: int
    cost: int


class Summary(NamedTuple):
    """How many items and connections a hang has, and of which kinds, most first."""

    items: int
    connections: int
    item_kinds: Dict[str, int]
    connection_kinds: Dict[str, int]


class Bounds(NamedTuple):
    """What no run of a plan passes; a number too large for 64 bits is the largest of them."""

    list_words: int
    scratch_words: int
    cost: int
    #: The rows of any operator.
    largest: int


class Ordering(NamedTuple):
    """A plan of one scan and extends, and what it costs."""

    plan: Tuple[str, ...]
    cost: int
    drawn: bool
    cheapest: bool


class Rule(NamedTuple):
    """A pattern that expects something, and what came."""

    pattern: str
    sentence: Optional[str]
    expect: str
    places: int
    holds: bool


class Explanation(NamedTuple):
    """Where the work of a run went; printed, it is told in words."""

    text: str
    places: int
    cost: int
    plan: List[str]
    plan_from: str
    records: List[Record]

    def __str__(self) -> str:
        return self.text

    def _repr_html_(self) -> str:
        from html import escape  # Only a notebook wants it, and it takes its time.

        return f"<pre>{escape(self.text)}</pre>"
