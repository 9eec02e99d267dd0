"""What is raised where there is no answer."""

from __future__ import annotations

from typing import List, NamedTuple, Optional, Sequence


class Error(Exception):
    """Everything that this package raises by itself; by itself, a fault of the package."""


class Fault(NamedTuple):
    """A place of a text, and what is wrong there. Lines and columns count from 1."""

    file: str
    line: int
    column: int
    #: The line as it stands.
    source: str
    reason: str
    #: What to write instead, if anything is near.
    help: Optional[str]
    #: The number that the engine refuses it with, where it is well formed and refused all the same.
    refusal: Optional[int]

    def __str__(self) -> str:
        said = f"{self.file}:{self.line}:{self.column}: {self.reason}"
        if self.help:
            said += f" ({self.help})"
        return f"{said}\n    {self.source.strip()}" if self.source.strip() else said


class InputError(Error, ValueError):
    """What was given means nothing: a text with faults, an unknown name, a table that is none.

    >>> import rizhavaan
    >>> try:
    ...     rizhavaan.Hang.from_text("[graph]\\nm1: motor\\nm1 -carries-> truss\\n")
    ... except rizhavaan.InputError as error:
    ...     print(error.faults[0].line, error.faults[0].reason)
    3 no item 'truss' has been declared
    """

    def __init__(self, sentence: Optional[str], faults: Sequence[Fault] = (), count: Optional[int] = None) -> None:
        #: The faults of a text by their places; none where no text is to blame.
        self.faults: List[Fault] = list(faults)
        more = (len(self.faults) if count is None else count) - len(self.faults[:SHOWN])
        said = [str(fault) for fault in self.faults[:SHOWN]]
        if more > 0:
            said.append(f"and {more} more")
        super().__init__(sentence or "\n".join(said))


#: How many faults an error's text has.
SHOWN = 20


class Refused(Error):
    """The proved engine refuses, by its number.

    >>> import rizhavaan
    >>> apart = rizhavaan.Pattern.from_text("[query]\\nvertices 4\\n0 -any-> 1\\n2 -any-> 3\\n")
    >>> try:
    ...     rizhavaan.Hang.from_text("[graph]\\nvertices 4\\n0 -1-> 1\\n").find(apart)
    ... except rizhavaan.Refused as refused:
    ...     print(refused.number, refused.name)
    11 QueryApart
    """

    def __init__(self, number: int, name: str, sentence: str) -> None:
        super().__init__(sentence)
        #: 1 to 35, as the scope of work and ``rizhavaan.h`` number them.
        self.number = number
        self.name = name
        self.sentence = sentence

    def __reduce__(self):
        return Refused, (self.number, self.name, self.sentence)


class MemoryLimit(Error, MemoryError):
    """The run needs more memory than it may take; ``memory=`` gives it more."""


class CheckFailed(Error):
    """The list did not pass its check against the text, so there is none: a fault of the engine, of this
    package or of the machine."""


class TextWarning(UserWarning):
    """What is well formed, and worth a look: two kinds that look like one, a pattern that nothing can
    match."""
