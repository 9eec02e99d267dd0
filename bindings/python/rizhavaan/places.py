"""The list of a pattern's places."""

from __future__ import annotations

import functools
from collections import namedtuple
from collections.abc import Sequence
from typing import TYPE_CHECKING, Any, Dict, Iterator, List, Optional, Tuple

from ._library import Thing, ask
from .answers import Record
from .graphs import missing, networkx
from .pattern import Pattern
from .picture import Picture

if TYPE_CHECKING:
    from .hang import Hang


@functools.lru_cache(maxsize=256)
def _place(vertices: Tuple[str, ...]) -> Any:
    """The named tuple of a pattern's vertices; a name that Python cannot write is its index, as ``_0``."""
    return namedtuple("Place", vertices, rename=True, module=__name__)


class Places(Sequence):
    """Every place of a pattern once, in the order of the plan: a sequence of named tuples, the item of each
    vertex.

    The list has been checked, place by place, against the hang.

    >>> from rizhavaan import Hang
    >>> hang = Hang.from_text('''
    ... [graph]
    ... beam: beam
    ... m1: motor
    ... m2: motor
    ... beam -carries-> m1
    ... beam -carries-> m2
    ... [query hangs]
    ... above: beam
    ... below: motor
    ... above -carries-> below
    ... ''')
    >>> places = hang.find("hangs")
    >>> len(places), places[0].below, places[-1]
    (2, 'm1', Place(above='beam', below='m2'))
    >>> [place.below for place in places[1:]]
    ['m2']
    >>> print(places)
    hangs: 2 places
    above  below
    beam   m1
    beam   m2
    """

    __slots__ = ("_hang", "_pattern", "_told", "_thing", "_range", "_type")

    #: How many places are shown where a list is printed.
    SHOWN = 20

    def __init__(self, *_: Any) -> None:
        raise TypeError("Places are found by Hang.find")

    @classmethod
    def _of(
        cls, hang: Hang, pattern: Pattern, told: Dict[str, Any], thing: Thing, part: Optional[range] = None
    ) -> Places:
        places = object.__new__(cls)
        places._hang = hang
        places._pattern = pattern
        places._told = told
        places._thing = thing
        places._range = range(told["places"]) if part is None else part
        places._type = _place(pattern.vertices)
        return places

    # A sequence.

    def __len__(self) -> int:
        return len(self._range)

    def __getitem__(self, index: Any) -> Any:
        if isinstance(index, slice):
            return Places._of(self._hang, self._pattern, self._told, self._thing, self._range[index])
        row, width = self._range[index], len(self._pattern)
        items = self._hang.items
        return self._type._make(items[number] for number in self._thing.words()[row * width : (row + 1) * width])

    def __iter__(self) -> Iterator[Any]:
        items, width = self._hang.items, len(self._pattern)
        words = self._words()
        named = map(items.__getitem__, words)
        return map(self._type._make, zip(*[named] * width))

    def _words(self) -> memoryview:
        """The numbers of all rows, one after the other."""
        words, width = self._thing.words(), len(self._pattern)
        part = self._range
        if part.step == 1:
            return words[part.start * width : part.stop * width]
        rows = b"".join(words[row * width : (row + 1) * width] for row in part)
        return memoryview(rows).cast("I") if rows else words[:0]

    # What is known of it.

    @property
    def hang(self) -> Hang:
        return self._hang

    @property
    def pattern(self) -> Pattern:
        return self._pattern

    @property
    def why(self) -> Optional[str]:
        """Why there is no place, where there is none."""
        return self._told.get("why")

    @property
    def cost(self) -> int:
        """How many entries of neighbour lists the run looked up."""
        return self._told["cost"]

    @property
    def records(self) -> List[Record]:
        """What each operator of the plan did."""
        return [Record(record["operator"], record["rows"], record["cost"]) for record in self._told["records"]]

    @property
    def plan(self) -> List[str]:
        """The operators that ran, in words."""
        return list(self._told["plan"])

    @property
    def plan_from(self) -> str:
        """Where the plan is from: ``given``, ``picked``, ``drawn``, ``cheapest`` or ``drawn instead of
        picked``."""
        return self._told["planFrom"]

    @property
    def images(self) -> int:
        """How often each place stands in the list with items exchanged; with ``once=True`` once."""
        return self._told["images"]

    @property
    def pairs_added(self) -> List[str]:
        """The pairs that ``once=True`` added to the pattern, in words."""
        return list(self._told["pairsAdded"])

    # In other forms.

    @property
    def numbers(self) -> memoryview:
        """The numbers of the items, a row for each place, where the library has them: nothing is copied but
        for a slice with steps."""
        words, shape = self._words().cast("B"), (len(self), len(self._pattern))
        # A memoryview of no rows has no second dimension.
        return words.cast("I", shape) if len(self) else words.cast("I")

    def to_numpy(self) -> Any:
        """The numbers of the items as a numpy array, a row for each place. It is not copied and cannot be
        written.

        >>> import numpy
        >>> from rizhavaan import Hang, Pattern
        >>> pattern = Pattern.from_text("[query]\\nvertices 2\\n0 -any-> 1\\n")
        >>> Hang.from_text("[graph]\\nvertices 3\\n0 -1-> 1\\n1 -1-> 2\\n").find(pattern).to_numpy().tolist()
        [[0, 1], [1, 2]]
        """
        try:
            import numpy
        except ImportError as error:
            raise missing("numpy") from error
        width = len(self._pattern)
        rows = numpy.frombuffer(self._thing.words(), dtype=numpy.uint32).reshape(-1, width)
        part = self._range
        if not len(part):
            return rows[:0]
        stop = part.stop if part.stop >= 0 else None
        return rows[part.start : stop : part.step]

    def to_pandas(self) -> Any:
        """A pandas DataFrame: a column for each vertex, a row for each place."""
        try:
            import pandas
        except ImportError as error:
            raise missing("pandas") from error
        items, words, width = self._hang.items, self._words(), len(self._pattern)
        vertices = list(self._pattern.vertices)
        columns = {vertex: [items[number] for number in words[i::width]] for i, vertex in enumerate(vertices)}
        return pandas.DataFrame(columns, columns=vertices)

    def to_networkx(self, index: int = 0) -> Any:
        """One place as a networkx MultiDiGraph: its items, each with ``vertex``, ``kind`` and ``day``, and
        the connections of the pattern between them, each with its kind as key and as ``kind``.

        >>> from rizhavaan import Hang, Pattern
        >>> hang = Hang.from_text("[graph]\\nm: motor\\nt: truss\\nm -carries-> t\\n")
        >>> places = hang.find(Pattern.from_text("[query]\\na: motor\\nvertex b\\na -any-> b\\n"))
        >>> place = places.to_networkx()
        >>> sorted(place.nodes(data="vertex")), list(place.edges(keys=True))
        ([('m', 'a'), ('t', 'b')], [('m', 't', 'carries')])
        """
        row = self._range[index]
        told, _ = ask("place", self._thing, row=row)
        graph = networkx().MultiDiGraph()
        place, width = self[index], len(self._pattern)
        numbers = self._thing.words()[row * width : (row + 1) * width]
        for vertex, item, number in zip(self._pattern.vertices, place, numbers):
            graph.add_node(item, vertex=vertex, **self._hang._attributes(number))
        for connection in told["connections"]:
            kind = connection["kind"]
            graph.add_edge(place[connection["from"]], place[connection["to"]], key=kind, kind=kind)
        return graph

    def _part(self) -> Dict[str, Any]:
        """The rows, as a question names them."""
        part = self._range
        if part == range(self._told["places"]):
            return {}
        return {"start": part.start if len(part) else 0, "step": part.step, "count": len(part)}

    def to_csv(self) -> str:
        """The places by names below a head, as comma-separated values."""
        return ask("csv", self._thing, **self._part())[0]["csv"]

    def sheet(self) -> List[str]:
        """The places by numbers on pages of 60 lines of 80 columns, as the proved engine prints them;
        :meth:`key` says the names.

        >>> from rizhavaan import Hang, Pattern
        >>> hang = Hang.from_text("[graph]\\nvertices 3\\n0 -1-> 1\\n1 -1-> 2\\n")
        >>> page = hang.find(Pattern.from_text("[query]\\nvertices 2\\n0 -any-> 1\\n")).sheet()[0]
        >>> [line.split() for line in page.splitlines()[:3]]
        [['1', '1'], ['0', '1'], ['1', '2']]
        """
        pages: List[str] = []
        while True:
            told, _ = ask("page", self._thing, page=len(pages) + 1, **self._part())
            pages.append(told["page"])
            if len(pages) >= told["pages"]:
                return pages

    def key(self) -> str:
        """The names of the numbers on the sheet, in lines as wide as its."""
        return ask("key", self._thing, **self._part())[0]["key"]

    def picture(self, all: bool = False) -> Picture:
        """The hang with these places marked in red; of a large one the marked items and their neighbours,
        unless ``all`` are asked for."""
        return Picture(**ask("picture", self._thing, all=bool(all), **self._part())[0])

    def _title(self) -> str:
        count = f"{len(self)} place{'' if len(self) == 1 else 's'}"
        return f"{self._pattern.name or 'query'}: {count}"

    def __repr__(self) -> str:
        return f"<Places of {self._title()}>"

    def __str__(self) -> str:
        rows = [self._pattern.vertices, *(tuple(map(str, place)) for place in self[: self.SHOWN])]
        widths = [max(map(len, column)) for column in zip(*rows)]
        lines = ["  ".join(cell.ljust(width) for cell, width in zip(row, widths)).rstrip() for row in rows]
        if len(self) > self.SHOWN:
            lines.append(f"and {len(self) - self.SHOWN} more")
        if not len(self) and self.why:
            lines.append(self.why)
        return "\n".join([self._title(), *lines])

    def _repr_html_(self) -> str:
        from html import escape  # Only a notebook wants it, and it takes its time.

        def cells(row: Sequence, cell: str) -> str:
            return "<tr>" + "".join(f"<{cell}>{escape(str(value))}</{cell}>" for value in row) + "</tr>"

        caption = escape(self._title())
        if self._pattern.sentence:
            caption += f"<br>{escape(self._pattern.sentence)}"
        if not len(self) and self.why:
            caption += f"<br>{escape(self.why)}"
        body = "".join(cells(place, "td") for place in self[: self.SHOWN])
        if len(self) > self.SHOWN:
            body += f'<tr><td colspan="{len(self._pattern)}">and {len(self) - self.SHOWN} more</td></tr>'
        head = cells(self._pattern.vertices, "th")
        return f"<table><caption>{caption}</caption><thead>{head}</thead><tbody>{body}</tbody></table>"

    def __reduce__(self):
        raise TypeError("Places are not pickled; to_pandas() or to_csv() are")
