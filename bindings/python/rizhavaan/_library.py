"""The shared library, by ctypes: one question in JSON, one answer. The interpreter's lock is released while
it is answered."""

from __future__ import annotations

import ctypes
import json
import os
import warnings
import weakref
from array import array
from typing import Any, Dict, List, Optional, Sequence, Tuple, Union

from .errors import CheckFailed, Error, Fault, InputError, MemoryLimit, Refused, TextWarning

_NAME = "librizhavaan_python.so"
_INTERFACE = 1


class _Lent(ctypes.Structure):
    _fields_ = [("bytes", ctypes.c_void_p), ("length", ctypes.c_uint64)]


class _Answer(ctypes.Structure):
    _fields_ = [
        ("json", ctypes.c_void_p),
        ("json_length", ctypes.c_uint64),
        ("thing", ctypes.c_void_p),
        ("words", ctypes.c_void_p),
        ("words_length", ctypes.c_uint64),
    ]


def _load() -> ctypes.CDLL:
    path = os.environ.get("RIZHAVAAN_PYTHON_LIBRARY") or os.path.join(os.path.dirname(__file__), _NAME)
    if not os.path.isfile(path):
        raise ImportError(
            f"rizhavaan: the shared library {path} is missing. It is inside the wheel that bindings/python/build "
            "makes; `pip install ./bindings/python` from the repository makes and installs it"
        )
    try:
        library = ctypes.CDLL(path)
        library.rizhavaan_interface.restype = ctypes.c_uint32
        interface = library.rizhavaan_interface()
    except (OSError, AttributeError) as error:
        reason = f"rizhavaan: the shared library {path} does not load; it is for x86-64 Linux: {error}"
        raise ImportError(reason) from error
    if interface != _INTERFACE:
        raise ImportError(f"rizhavaan: {path} has interface {interface}, this package {_INTERFACE}: install both anew")
    library.rizhavaan_ask.restype = ctypes.c_uint32
    library.rizhavaan_ask.argtypes = [
        ctypes.c_void_p,
        ctypes.POINTER(_Lent),
        ctypes.c_uint64,
        ctypes.POINTER(_Answer),
    ]
    library.rizhavaan_forget.restype = None
    library.rizhavaan_forget.argtypes = [ctypes.c_void_p, ctypes.c_uint64]
    library.rizhavaan_release.restype = None
    library.rizhavaan_release.argtypes = [ctypes.c_void_p]
    return library


_library = _load()


class Thing:
    """A hang, a list or words of the library; it is handed back when nothing refers to it."""

    __slots__ = ("pointer", "_words", "_length", "__weakref__")

    def __init__(self, pointer: int, words: Optional[int], length: int) -> None:
        self.pointer = pointer
        self._words = words
        self._length = length
        weakref.finalize(self, _library.rizhavaan_release, pointer).atexit = False

    def words(self) -> memoryview:
        """Its words, where they lie; they cannot be written."""
        if not self._length:
            return memoryview(array("I"))
        words = (ctypes.c_uint32 * self._length).from_address(self._words)
        # Whoever looks at the words keeps the thing.
        words.thing = self
        return memoryview(words).cast("B").cast("I").toreadonly()


#: What is lent for the time of a question: bytes, or words.
Lent = Union[bytes, "array[int]"]


def _address(lent: Lent) -> Tuple[int, int]:
    """Where something lies that is lent, and how many bytes it has."""
    if isinstance(lent, bytes):
        return ctypes.cast(ctypes.c_char_p(lent), ctypes.c_void_p).value or 0, len(lent)
    address, length = lent.buffer_info()
    return address, length * lent.itemsize


def ask(
    question: str, thing: Optional[Thing] = None, lent: Sequence[Lent] = (), **arguments: Any
) -> Tuple[Dict[str, Any], Optional[Thing]]:
    """Asks a question of a thing, or of none: the JSON of its answer, and the thing that came of it."""
    asked = json.dumps({"ask": question, **arguments}, ensure_ascii=False, allow_nan=False).encode()
    all_lent = (asked, *lent)
    blobs = (_Lent * len(all_lent))(*map(_address, all_lent))
    answer = _Answer()
    pointer = None if thing is None else thing.pointer
    status = _library.rizhavaan_ask(pointer, blobs, len(all_lent), ctypes.byref(answer))
    made = Thing(answer.thing, answer.words, answer.words_length) if answer.thing else None
    try:
        said = json.loads(ctypes.string_at(answer.json, answer.json_length))
    finally:
        _library.rizhavaan_forget(answer.json, answer.json_length)
    if status:
        raise _error(said)
    return said, made


def _faults(said: Dict[str, Any], of: str) -> List[Fault]:
    return [Fault(**{name: fault[name] for name in Fault._fields}) for fault in said.get(of) or ()]


def _error(said: Dict[str, Any]) -> Exception:
    """The exception of an answer that is none."""
    sentence = said["sentence"]
    if said["error"] == "input":
        return InputError(sentence, _faults(said, "faults"), said.get("faultCount"))
    if said["error"] == "refused":
        return Refused(said["number"], said["name"], sentence)
    return {"memory": MemoryLimit, "check": CheckFailed}.get(said["error"], Error)(sentence)


def warn(said: Dict[str, Any]) -> None:
    """Warns of what an answer has to say beside; the line of the caller's caller is named."""
    for fault in _faults(said, "warnings"):
        warnings.warn(str(fault), TextWarning, stacklevel=3)


def refusals() -> List[Dict[str, Any]]:
    """Every refusal of the engine: number, name, sentence.

    >>> refusals()[0]["number"], refusals()[-1]["name"]
    (1, 'SheetBytes')
    """
    said: Any = ask("refusals")[0]
    return said
