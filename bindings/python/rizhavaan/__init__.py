"""Every place where a pattern occurs in a rig, by a proved engine.

A **hang** is a rig as it hangs, items and connections; a **pattern** is a small one to look for; the
**places** are all that there are, each once: the engine that lists them is proved to leave none out. See
the repository for what is proved and what is tested.

>>> import rizhavaan
>>> hang = rizhavaan.Hang.from_text("[graph]\\nbeam: beam\\nm1: motor\\nbeam -carries-> m1\\n")
>>> pattern = rizhavaan.Pattern.from_text("[query]\\nabove: beam\\nbelow: motor\\nabove -carries-> below\\n")
>>> hang.find(pattern)[0]
Place(above='beam', below='m1')
"""

from ._library import refusals
from .answers import Bounds, Explanation, Ordering, Record, Rule, Summary
from .errors import CheckFailed, Error, Fault, InputError, MemoryLimit, Refused, TextWarning
from .hang import Hang
from .pattern import Pattern
from .picture import Picture
from .places import Places

__version__ = "0.1.0"

__all__ = [
    "Bounds",
    "CheckFailed",
    "Error",
    "Explanation",
    "Fault",
    "Hang",
    "InputError",
    "MemoryLimit",
    "Ordering",
    "Pattern",
    "Picture",
    "Places",
    "Record",
    "Refused",
    "Rule",
    "Summary",
    "TextWarning",
    "refusals",
]
