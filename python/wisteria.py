"""Verified models of interrupt controllers, for programs in Python.

    >>> from wisteria import Controller
    >>> aic = Controller("aic", 0, 0)     # no source external, all lines low
    >>> aic.write(0x014, 0x23)            # mode of source 5: rising edge, priority 3
    >>> aic.write(0x094, 0xA0)            # its vector
    >>> aic.write(0x120, 0x20)            # enable source 5
    >>> aic.line(5, 1)                    # its line rises
    >>> aic.outputs                       # IRQ is active, FIQ is not, no entry is open
    (1, 0, 0)
    >>> hex(aic.read(0x100))              # IVR: the vector; its handler starts
    '0xa0'

What answers is the proved library, libwisteria.so, which `./run library` proves and builds (x86-64). It is the file that the variable WISTERIA_LIBRARY of
the environment names; else the one beside this file; else the one in target/library of the checkout that this file stands in. It is looked for when it is
first needed. What is refused raises Refused, and changes nothing. This module, which hands numbers over and back, is tested and not proved.
"""
from __future__ import annotations

import ctypes
import operator
import os
from array import array
from pathlib import Path
from typing import Any, Callable, Iterable, List, NamedTuple, Optional, Sequence, Tuple, Union

__all__ = [
    "Answer", "Bounds", "Controller", "Figures", "LibraryMissing", "Refused", "TextRefused",
    "bounds", "encode", "explain", "figures", "listing", "stack",
]  # fmt: skip
__version__ = "1.12.0"

LONGEST = 65536  # the longest trace that is played and the longest table that is read, in bytes
LONGEST_TEXT = 5242880  # the longest text of a trace that is encoded, in bytes
LIMIT = 20000  # the most steps of a trace that are played
SOURCES = 32  # of an AIC
_WORDS = 2048  # that hold a controller, of 32 bits each

# The kinds of controller: the number of each, and the numbers that configure it.
_KINDS = {
    "aic": (0, ("external", "lines")),
    "coreinterrupt": (1, ("fiqs", "irqs", "fiq_level", "irq_level")),
    "cic": (2, ("systems", "channels", "hosts", "revision")),
    "aintc": (3, ()),
    "indexed": (4, ("systems", "channels", "hosts", "revision", "choice")),
}
_CONFIGURES = dict(_KINDS.values())

# The kinds of step, with the number of each.
_STEPS = {"read": 1, "write": 2, "line": 3}

# The refusals that a function of this module meets, in the words of docs/REFUSALS.md.
_REFUSALS = {
    1: "the offset is no multiple of 4",
    2: "there is no register at this offset, or none in this configuration",
    3: "a read of a register that can only be written",
    4: "a write of a register that can only be read",
    6: "a number is beyond its limit",
    8: "a number is cut short, has more than 32 bits or more than five bytes",
    9: "there is no such kind of controller or of step",
    10: "a number of the configuration is beyond its limit",
    11: "more than 65,536 bytes",
    12: "the record that was handed in breaks a rule of its model, or what is kept beside it does not agree with it",
    13: "an access without the privilege that it needs",
    14: "a number of a priority table is beyond its limit: a priority over 7, a type over 3, a frame over 65,535 bytes",
}
# The same of 8 where a typed table is refused by it.
_TABLE_SLIP = "a number is missing, is none, or something stands behind the last; the word of forced sources has more than 32 bits"

# What wisteria_encode may have expected, by its number.
_EXPECTED = {
    1: "a controller was expected: aic, coreinterrupt, cic, aintc or indexed",
    2: "a step was expected: read, write or line",
    3: "a number of at most 32 bits was expected as word {word}",
    4: "the end of the line was expected before word {word}",
    5: "the trace is longer than 65536 bytes",
    6: "the text is longer than 5242880 bytes",
}


class LibraryMissing(OSError):
    """The proved library is not there, or cannot be loaded, or lacks a function; the message says how to build it."""


class Refused(Exception):
    """A step, a start or a table that is refused; what was asked has changed nothing.

    number: the number of the refusal (docs/REFUSALS.md)
    words:  what it says
    offset: where a table is at fault, in bytes from its start; None where there is no such place
    """

    def __init__(self, number: int, offset: Optional[int] = None, words: Optional[str] = None) -> None:
        self.number = number
        self.offset = offset
        self.words = words if words is not None else _REFUSALS.get(number, "a refusal that this module has no words for")
        place = "" if offset is None else f" at byte {offset}"
        super().__init__(f"refused by {number}{place}: {self.words}")

    def __reduce__(self) -> Tuple[type, Tuple[int, Optional[int], str]]:
        return type(self), (self.number, self.offset, self.words)


class TextRefused(ValueError):
    """A text that stands for no trace (docs/TEXT.md).

    expected: what was expected, 1 to 6 as in include/wisteria.h
    words:    the same in words
    line, word: where, each counted from 1
    """

    def __init__(self, expected: int, line: int, word: int) -> None:
        self.expected = expected
        self.words = _EXPECTED[expected].format(word=word)
        self.line = line
        self.word = word
        super().__init__(f"line {line}: {self.words}")

    def __reduce__(self) -> Tuple[type, Tuple[int, int, int]]:
        return type(self), (self.expected, self.line, self.word)


class Answer(NamedTuple):
    """What a step of many answers.

    refusal: the number of the refusal, 0 for none
    value:   the value read, 0 for anything else and where it is refused
    """

    refusal: int
    value: int


class Figures(NamedTuple):
    """What one source of an AIC did over the steps played of a trace.

    handlers_started:             handlers of this source
    most_started_while_it_waited: handlers of other sources started in one wait of this one, at most
    most_entries_open:            entries, which are handlers and spurious marks, open at once while a handler of this source was among them
    """

    handlers_started: int
    most_started_while_it_waited: int
    most_entries_open: int


class Bounds(NamedTuple):
    """The waits of one source of an AIC over the steps played of a trace, and the largest bound of one.

    A bound is how many handlers of other sources could at most be started in a wait (docs/RUNS.md). It is the sum of the six terms below it, which are those
    of the first wait that has it. Rivals are the sources ahead of the waiting one that are not fast when the wait begins.

    waits:                     waits that began
    waits_unended:             of these, waits that did not end by the last step: 0 or 1
    waits_unbounded:           of these, waits without a bound: a mode, FFER or FFDR was written in them
    first_unbounded_step:      the step, counted from 1, by which the first of those lost it; 0 where all have one
    handlers:                  the largest bound, in handlers
    handlers_of_pending:       rivals that are due where they begin to count
    handlers_of_edges:         edges of edge-triggered rivals
    handlers_of_commands:      set commands to edge-triggered rivals
    handlers_of_turns:         turns to active of the lines of level-sensitive rivals
    handlers_of_closed_active: handlers of level-sensitive rivals that were closed while their line was active
    handlers_of_remembered:    another source that was remembered when the wait began: 0 or 1
    """

    waits: int
    waits_unended: int
    waits_unbounded: int
    first_unbounded_step: int
    handlers: int
    handlers_of_pending: int
    handlers_of_edges: int
    handlers_of_commands: int
    handlers_of_turns: int
    handlers_of_closed_active: int
    handlers_of_remembered: int


# ---- the library

_SIZE, _WORD, _BYTES, _PLACE = ctypes.c_size_t, ctypes.c_uint32, ctypes.c_char_p, ctypes.c_void_p
# The functions over a controller keep the interpreter's lock, so that no other thread can change its words meanwhile; those over a trace or text release it.
_KEPT = {
    "wisteria_start": (_PLACE, _WORD, _PLACE),
    "wisteria_read": (_PLACE, _WORD, _WORD, _PLACE),
    "wisteria_write": (_PLACE, _WORD, _WORD, _WORD),
    "wisteria_line": (_PLACE, _WORD, _WORD),
    "wisteria_outputs": (_PLACE, _PLACE),
    "wisteria_step_words": (_PLACE, _PLACE, _SIZE, _PLACE, _SIZE),
}
_WHOLE = {
    "wisteria_list": (_SIZE, (_BYTES, _SIZE, _WORD, _PLACE, _SIZE)),
    "wisteria_explain": (_SIZE, (_BYTES, _SIZE, _WORD, _PLACE, _SIZE)),
    "wisteria_encode": (_SIZE, (_BYTES, _SIZE, _PLACE, _SIZE, _PLACE)),
    "wisteria_stack": (_SIZE, (_BYTES, _SIZE, _PLACE, _SIZE)),
    "wisteria_figures": (_WORD, (_BYTES, _SIZE, _WORD, _PLACE, _PLACE, _PLACE)),
    "wisteria_bounds": (ctypes.c_uint64, (_BYTES, _SIZE, _WORD, _WORD, _PLACE, _PLACE)),
}
_HOW = "`./run library` in a checkout of Wallwisteria proves and builds it, on x86-64, and WISTERIA_LIBRARY may name the file"


class _Library:
    """The functions of a loaded library, by their names without `wisteria_`."""

    def __init__(self, path: str) -> None:
        try:
            kept, whole = ctypes.PyDLL(path), ctypes.CDLL(path)
        except OSError as why:
            raise LibraryMissing(f"{why}; {_HOW}") from None
        self.path = path
        for name, words in _KEPT.items():
            self._take(kept, name, _WORD, words)
        for name, (answer, words) in _WHOLE.items():
            self._take(whole, name, answer, words)

    def _take(self, library: ctypes.CDLL, name: str, answer: Any, words: Sequence[Any]) -> None:
        function = getattr(library, name, None)
        if function is not None:
            function.restype, function.argtypes = answer, words
            setattr(self, name[len("wisteria_"):], function)

    def __getattr__(self, name: str) -> Callable[..., int]:
        """A function that this library lacks, as an older one may."""
        if name.startswith("_"):
            raise AttributeError(name)
        raise LibraryMissing(f"{self.path} has no function wisteria_{name}; {_HOW}")


_loaded: Optional[_Library] = None


def _library() -> _Library:
    global _loaded
    if _loaded is None:
        named = os.environ.get("WISTERIA_LIBRARY")
        here = Path(__file__).resolve().parent
        places = [Path(named)] if named else [here / "libwisteria.so", here.parent / "target" / "library" / "libwisteria.so"]
        found = next((place for place in places if place.is_file()), None)
        if found is None:
            raise LibraryMissing(f"the library is not there: no {' and no '.join(map(str, places))}; {_HOW}")
        _loaded = _Library(str(found.resolve()))
    return _loaded


# ---- numbers, bytes and answers


def _word(name: str, value: Any) -> int:
    """The number, which has to fit 32 bits: the call of a C function would cut it without a word."""
    number: int = operator.index(value)
    if not 0 <= number < 1 << 32:
        raise ValueError(f"{name} is {number}, and a number from 0 to 4294967295 is asked for")
    return number


def _bytes(name: str, data: Union[bytes, bytearray, memoryview], most: int) -> bytes:
    """The bytes, which nobody else changes; of more than `most` one more, by which they are refused as a whole."""
    if not isinstance(data, (bytes, bytearray, memoryview)):
        raise TypeError(f"{name} is bytes, not {type(data).__name__}")
    return bytes(memoryview(data).cast("B")[: most + 1])


def _typed(text: Union[str, bytes], most: int) -> bytes:
    return _bytes("a text", text.encode("utf-8") if isinstance(text, str) else text, most)


def _checked(refusal: int) -> None:
    if refusal != 0:
        raise Refused(refusal)


# ---- one controller


class Controller:
    """One controller that answers a step at a time, by the rules that hold for a trace (docs/EMBED.md).

    kind is a name, with these numbers behind it, or its number in a trace, 0 to 4:

        Controller("aic", external, lines)                              words: bit n for source n
        Controller("coreinterrupt", fiqs, irqs, fiq_level, irq_level)   0 to 8 and 0 to 32 sources; active levels 0 or 1
        Controller("cic", systems, channels, hosts, revision)           1 to 1,024, 1 to 256, 1 to 256; a word
        Controller("aintc")
        Controller("indexed", systems, channels, hosts, revision, choice)   a CIC with prioritised indices; choice 1 for on, 0 for off

    Raises Refused with 9 for an unknown kind and with 10 for a number beyond its limit.
    """

    __slots__ = ("_words",)

    def __init__(self, kind: Union[str, int], *numbers: int) -> None:
        if isinstance(kind, str):
            if kind not in _KINDS:
                raise ValueError(f"'{kind}' is no kind of controller: {', '.join(_KINDS)}")
            number = _KINDS[kind][0]
        else:
            number = _word("kind", kind)
        names = _CONFIGURES.get(number, ())
        if number in _CONFIGURES and len(names) != len(numbers):
            raise TypeError(f"a controller of kind {kind} takes {len(names)} numbers ({', '.join(names)}), not {len(numbers)}")
        padded = [_word(f"number {at + 1} of the configuration", value) for at, value in enumerate(numbers[:5])] + [0] * 5
        self._words = (_WORD * _WORDS)()
        _checked(_library().start(self._words, number, (_WORD * 5)(*padded[:5])))

    def read(self, offset: int, privilege: int = 1) -> int:
        """The value of the register at an offset in bytes, 32 bits; what the read does to the controller is done. Raises Refused.

        The privilege, 1 or 0, is looked at by an AINTC alone.
        """
        value = _WORD()
        _checked(_library().read(self._words, _word("offset", offset), _word("privilege", privilege), ctypes.byref(value)))
        return value.value

    def write(self, offset: int, value: int, privilege: int = 1) -> None:
        """Writes a value of 32 bits to the register at an offset in bytes. Raises Refused."""
        _checked(_library().write(self._words, _word("offset", offset), _word("privilege", privilege), _word("value", value)))

    def line(self, number: int, level: int) -> None:
        """Puts a line to a level, 0 or 1. Raises Refused with 6 for a line or level that there is not.

        Lines are sources 0 to 31 of an AIC, IRQ inputs 0 to 31 and FIQ inputs 32 to 39 of a CoreInterrupt, system interrupts of a CIC, inputs 0 to 127 of an
        AINTC.
        """
        _checked(_library().line(self._words, _word("line", number), _word("level", level)))

    def steps(self, steps: Iterable[Sequence[Union[str, int]]]) -> List[Answer]:
        """Carries out many steps, each a tuple: ("read", offset), ("write", offset, value) or ("line", number, level), a read or write with a privilege
        behind that or without, as in the methods of these names. The number of the kind, 1 to 3, may stand for its name.

        Answers an Answer for each step, in order: a refused step changes nothing, raises nothing, and the next one is carried out. An unknown number in the
        place of a kind is refused by 9. Raises Refused with 12 where the words are no sound controller's.
        The words are looked through once for all steps, so that this is faster than one call for each.
        """
        told = _told(steps)
        number = len(told) // 4
        answers = array("I", bytes(8 * number + 4))
        told.append(0)  # one word more than is handed over, here too: where there is no step, there is still a place
        _checked(_library().step_words(self._words, told.buffer_info()[0], 4 * number, answers.buffer_info()[0], 2 * number))
        return list(map(Answer._make, zip(answers[: 2 * number : 2], answers[1 : 2 * number : 2])))

    @property
    def outputs(self) -> Tuple[int, int, int]:
        """The three numbers that a line of a listing ends with (docs/LISTING.md).

        Of an AIC: 1 if IRQ is active, 1 if FIQ is active, entries open, 0 to 8. Of a CoreInterrupt: 1 if IRQ is active, 1 if FIQ is active, 0. Of a CIC: hosts
        asserted, 0 to 256, the number of the lowest of them or 256, 0. Of an AINTC: 1 if IRQ is active, 1 if FIQ is active, the number of the input chosen
        for IRQ, or 0.
        """
        columns = (_WORD * 3)()
        _checked(_library().outputs(self._words, columns))
        return columns[0], columns[1], columns[2]

    def copy(self) -> Controller:
        """Another controller in the same state. What is done to one does nothing to the other."""
        return type(self).of_words(self.words)

    @property
    def words(self) -> bytes:
        """All that it holds, to be kept: 8,192 bytes, which are 2,048 words whose meaning is the library's."""
        return bytes(self._words)

    @classmethod
    def of_words(cls, words: bytes) -> Controller:
        """The controller whose words were kept. Any 8,192 bytes are taken; where they are no sound controller's, each call raises Refused with 12."""
        if len(words) != 4 * _WORDS:
            raise ValueError(f"a controller is {4 * _WORDS} bytes, not {len(words)}")
        made = cls.__new__(cls)
        made._words = (_WORD * _WORDS).from_buffer_copy(words)
        return made

    def __reduce__(self) -> Tuple[Callable[[bytes], Controller], Tuple[bytes]]:
        """For the modules copy and pickle."""
        return type(self).of_words, (self.words,)


def _told(steps: Iterable[Sequence[Union[str, int]]]) -> array[int]:
    """The steps in words, four to each: its kind, its two numbers, its privilege. An array has no word that does not fit, and says so at once."""
    words: List[Any] = []
    for step in steps:
        number = len(step)
        kind = step[0] if number else None
        if isinstance(kind, str):
            if kind not in _STEPS:
                raise ValueError(f"'{kind}' is no kind of step: {', '.join(_STEPS)}")
            kind = _STEPS[kind]
        if kind == 1 and 2 <= number <= 3:
            words += 1, step[1], 0, step[2] if number == 3 else 1
        elif kind == 3 and number == 3:
            words += 3, step[1], step[2], 1
        elif kind not in (1, 3) and 3 <= number <= 4:
            words += kind, step[1], step[2], step[3] if number == 4 else 1
        else:
            raise TypeError(f"{tuple(step)} is no step: read and an offset, write with an offset and a value, either with a privilege or without, line and level")
    try:
        return array("I", words)
    except (OverflowError, TypeError):
        for at, value in enumerate(words):
            _word(f"a number of step {at // 4 + 1}", value)
        raise


# ---- traces and tables


def _text(function: str, trace: bytes, room: int) -> str:
    out = ctypes.create_string_buffer(room)
    data = _bytes("a trace", trace, LONGEST)
    length = getattr(_library(), function)(data, len(data), LIMIT, out, room)
    return ctypes.string_at(out, length).decode("ascii")


def listing(trace: bytes) -> str:
    """The listing of a recorded trace, a line for each step, of which at most 20,000 are played (docs/LISTING.md)."""
    return _text("list", trace, 29 * LIMIT + 58)


def explain(trace: bytes) -> str:
    """The trace as text, with what each step did in the maker's words, of which at most 20,000 are played (docs/TEXT.md)."""
    return _text("explain", trace, 256 * LIMIT + 512)


def encode(text: Union[str, bytes]) -> bytes:
    """The bytes of the trace that a text stands for (docs/TEXT.md), at most 65,536. Raises TextRefused."""
    data = _typed(text, LONGEST_TEXT)
    out, refusal = ctypes.create_string_buffer(LONGEST), (_SIZE * 3)()
    length = _library().encode(data, len(data), out, LONGEST, refusal)
    if refusal[0] != 0:
        raise TextRefused(*refusal)
    return out.raw[:length]


def figures(trace: bytes) -> List[Figures]:
    """What each of the 32 sources of an AIC did over the steps played, at most 20,000: the Figures of source 0 first.

    All are 0 of source 0, of another kind of controller, and of a trace that starts none.
    """
    columns = [(_WORD * SOURCES)() for _ in range(3)]
    data = _bytes("a trace", trace, LONGEST)
    _library().figures(data, len(data), LIMIT, *columns)
    return list(map(Figures._make, zip(*columns)))


def bounds(trace: bytes, source: int) -> Bounds:
    """The waits of a source of an AIC over the steps played, at most 20,000, and the largest bound of one, in handlers.

    All are 0 of source 0 and of numbers over 31, of another kind of controller, and of a trace that starts none.
    """
    waits, terms = (_WORD * 4)(), (_WORD * 6)()
    data = _bytes("a trace", trace, LONGEST)
    largest = _library().bounds(data, len(data), LIMIT, _word("source", source), waits, terms)
    return Bounds._make([*waits, largest, *terms])


def stack(text: Union[str, bytes]) -> int:
    """How many bytes of stack the open handlers and spurious marks of an AIC can take at once, by a typed priority table (docs/STACK.md).

    Raises Refused with 8 and an offset in bytes for a slip of the typing, with 14 for a number beyond its limit, with 11 for a text of more than 65,536 bytes.
    """
    data = _typed(text, LONGEST)
    out = ctypes.create_string_buffer(13)
    words = ctypes.string_at(out, _library().stack(data, len(data), out, 13)).decode("ascii").split()
    if words[0] != "E":
        return int(words[0])
    number, offset = int(words[1]), int(words[2]) if len(words) > 2 else None
    raise Refused(number, offset, _TABLE_SLIP if number == 8 else None)
