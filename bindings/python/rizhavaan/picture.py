"""Pictures."""

from __future__ import annotations

import os
from typing import Union


class Picture:
    """A hang as it hangs: what carries stands above what it carries. A notebook shows it."""

    __slots__ = ("svg", "dot")

    def __init__(self, svg: str, dot: str) -> None:
        #: The picture.
        self.svg = svg
        #: Its description in Graphviz's language, for another layout.
        self.dot = dot

    def save(self, path: Union[str, os.PathLike]) -> None:
        """Writes the picture, or where the name ends in ``.dot`` its description."""
        path = os.fsdecode(path)
        with open(path, "w", encoding="utf-8") as file:
            file.write(self.dot if path.endswith(".dot") else self.svg)

    def _repr_svg_(self) -> str:
        return self.svg

    def __repr__(self) -> str:
        return f"<Picture of {len(self.svg)} characters of SVG>"
