"""The formatter for Cedar policies.

>>> from cedar_formatter import format_text
>>> format_text("permit(principal,action,resource);")
'permit (principal, action, resource);\\n'

A text is a `str`, or bytes in UTF-8 (`bytes`, `bytearray`, `memoryview`); anything else is a `TypeError`. A text that is
refused raises `Refused`, and bytes that aren't UTF-8 raise `NotUtf8`; both are `ValueError`s and have `kind`, `byte`, `line`
and `column`. Running out of memory raises a `MemoryError`.

A call needs 1 MiB of stack for the most deeply nested texts, on whatever thread it is made. On a smaller one, as after
`threading.stack_size(262144)`, such a text ends the process by SIGSEGV, and no exception is raised.

`__version__` is the version of the library, with `+unproved` after it if the library was built without a proof.

The library is what the variable CEDAR_FORMATTER names; else the one in this package, where pip puts it; else that of the
repository, bindings/out; else the one of a release, PREFIX/lib.
"""
import ctypes
import enum
import operator
from typing import Iterator, NamedTuple, Optional, Tuple, Union, overload

from ._library import RESULT, NO_ROOM, Answer, FaultAnswer, PlaceAnswer, load

__all__ = ["Fault", "Kind", "NotUtf8", "Place", "Refused", "Span", "__version__", "faults", "format_text", "is_formatted", "place", "same_layout"]

_LIBRARY = load()


def _version() -> str:
    """The version, from `noblesilk VERSION, proved with KIT`, or `noblesilk VERSION, not proved, built with KIT`."""
    out, answer = ctypes.create_string_buffer(200), Answer()
    _LIBRARY.cedar_version(out, len(out), ctypes.byref(answer))
    number, _, how = out.raw[: answer.number].decode().partition(", ")
    return number.rpartition(" ")[2] + ("" if how.startswith("proved ") else "+unproved")


__version__ = _version()

_Bytes = Union[bytes, bytearray, memoryview]
_Text = Union[str, _Bytes]


class Kind(enum.IntEnum):
    """Why a text is refused; the numbers are those of `include/cedar_formatter.h`."""

    UNKNOWN_CHARACTER = 1
    UNFINISHED_STRING = 2
    NUMBER_TOO_LARGE = 3
    GRAMMAR = 4
    TOO_DEEP = 5
    NOT_UTF8 = 9


_WORDS = {
    Kind.UNKNOWN_CHARACTER: "unknown character",
    Kind.UNFINISHED_STRING: "unfinished string",
    Kind.NUMBER_TOO_LARGE: "number too large",
    Kind.GRAMMAR: "not in the grammar",
    Kind.TOO_DEEP: "nested too deeply",
    Kind.NOT_UTF8: "not UTF-8",
}


class Place(NamedTuple):
    """The place of a byte: its line and its column, both from 1, the column in characters."""

    line: int
    column: int


class Span(NamedTuple):
    """Bytes of a text, counted from 0 in its UTF-8: the first of them, and the one after the last."""

    start: int
    end: int


class Fault(NamedTuple):
    """A fault of a text. Bytes are counted from 0 in the text's UTF-8."""

    kind: Kind
    #: The byte: the first at which no accepted text continues; the length of the text if something is missing at its end.
    byte: int
    #: The bytes that the fault is about: the first of them, and the one after the last.
    start: int
    end: int
    #: The line of these bytes, from 1; of their end if something is missing.
    line: int
    #: Their column in characters, from 1.
    column: int
    #: What is wrong, for people: "expected an operand, found ')'".
    message: str
    #: The innermost bracket of the policy that is still open, if the fault is the end of the text, a ";" or a closing bracket of
    #: another kind; else None.
    unclosed: Optional[Span]


class _Refusal(ValueError):
    """What both exceptions hold. The message is 'LINE:COLUMN: WHY'."""

    kind: Kind
    #: The byte, counted from 0 in the text's UTF-8.
    byte: int
    #: The line of the byte, from 1.
    line: int
    #: The column of the byte in characters, from 1.
    column: int

    def __init__(self, kind: Kind, byte: int, line: int, column: int) -> None:
        # (an exception is pickled with its arguments)
        super().__init__(kind, byte, line, column)
        self.kind, self.byte, self.line, self.column = kind, byte, line, column

    def __str__(self) -> str:
        return f"{self.line}:{self.column}: {_WORDS[self.kind]}"


class Refused(_Refusal):
    """The text is refused: why (`kind`), and where (`byte`, `line`, `column`)."""


class NotUtf8(_Refusal):
    """The text isn't UTF-8: the first place where it isn't (`byte`, `line`, `column`)."""


def _bytes_of(text: _Text) -> bytes:
    if isinstance(text, str):
        try:
            return text.encode()
        except UnicodeEncodeError as error:
            # (half a surrogate pair)
            before = text[: error.start]
            raise _not_utf8(before.encode()) from None
    if isinstance(text, (bytes, bytearray, memoryview)):
        return bytes(text)
    raise TypeError(f"a text is a str or bytes, not {type(text).__name__}")


def _layout(width: int, indent: int) -> Tuple[int, int]:
    return _number("width", width, 0, 2**64 - 1), _number("indent", indent, -(2**63), 2**63 - 1)


def _number(name: str, value: int, least: int, most: int) -> int:
    # (ctypes would take the low bits of a number that is too large)
    number = operator.index(value)
    if not least <= number <= most:
        raise OverflowError(f"{name} is {number}, which is not from {least} to {most}")
    return number


def _find(text: bytes, byte: int) -> Place:
    found = PlaceAnswer()
    _LIBRARY.cedar_place(text, len(text), byte, ctypes.byref(found))
    if found.kind != RESULT:
        raise _not_utf8(text)
    return Place(found.line, found.column)


def _not_utf8(text: bytes) -> NotUtf8:
    """The exception for the first bytes that aren't UTF-8, or for what follows a text that is."""
    byte = len(text)
    try:
        text.decode()
    except UnicodeDecodeError as error:
        byte = error.start
    return NotUtf8(Kind.NOT_UTF8, byte, *_find(text[:byte], byte))


def _result(answer: Answer, text: bytes) -> int:
    """The number of a result; raises the exception that says why if there is none."""
    if answer.kind == RESULT:
        return answer.number
    if answer.kind == Kind.NOT_UTF8:
        raise _not_utf8(text)
    if answer.kind in _WORDS:
        raise Refused(Kind(answer.kind), answer.number, *_find(text, answer.number))
    raise MemoryError("out of memory")


@overload
def format_text(text: str, width: int = 80, indent: int = 2) -> str: ...
@overload
def format_text(text: _Bytes, width: int = 80, indent: int = 2) -> bytes: ...
def format_text(text: _Text, width: int = 80, indent: int = 2) -> Union[str, bytes]:
    """The policies, laid out at `width` columns per line and `indent` columns per level: a `str` for a `str`, else `bytes`."""
    given, layout, answer = _bytes_of(text), _layout(width, indent), Answer()
    room = 2 * len(given) + 64
    while True:
        out = ctypes.create_string_buffer(room)
        _LIBRARY.cedar_format(given, len(given), *layout, out, room, ctypes.byref(answer))
        if answer.kind != NO_ROOM:
            break
        room = answer.number
    made = out.raw[: _result(answer, given)]
    return made.decode() if isinstance(text, str) else made


def is_formatted(text: _Text, width: int = 80, indent: int = 2) -> bool:
    """Whether the text is as `format_text` lays it out."""
    given, layout, answer = _bytes_of(text), _layout(width, indent), Answer()
    _LIBRARY.cedar_is_formatted(given, len(given), *layout, ctypes.byref(answer))
    return _result(answer, given) == 1


def same_layout(a: _Text, b: _Text) -> bool:
    """Whether the texts are laid out alike, at whatever width and indentation. A refusal of `a` is raised before one of `b`."""
    first, second, answer = _bytes_of(a), _bytes_of(b), Answer()
    _LIBRARY.cedar_same_layout(first, len(first), second, len(second), ctypes.byref(answer))
    if answer.kind == Kind.NOT_UTF8:
        # (which comes first, whichever text it is)
        _find(first, 0)
        _find(second, 0)
    elif answer.kind in _WORDS:
        # (the answer doesn't say which text it is)
        is_formatted(first)
        is_formatted(second)
    return _result(answer, second) == 1


def place(text: _Text, byte: int) -> Place:
    """The line and the column of a byte, counted from 0; one past the end has the place of the end."""
    return _find(_bytes_of(text), _number("byte", byte, 0, 2**64 - 1))


def faults(text: _Text) -> Iterator[Fault]:
    """All faults of the text, one after the other: for each policy that isn't accepted, the first. An accepted text has none.

    A text that isn't Cedar at all can have one for each semicolon, and each takes time in proportion to the text; take as many as
    you show, with `itertools.islice`, say.
    """
    given, found = _bytes_of(text), FaultAnswer()
    # (such exceptions come from the call, and not with the first fault)
    _find(given, 0)
    return _faults(given, found)


def _faults(text: bytes, found: FaultAnswer) -> Iterator[Fault]:
    while True:
        begin, room = found.next, 500
        while True:
            out = ctypes.create_string_buffer(room)
            _LIBRARY.cedar_next_fault(text, len(text), begin, out, room, ctypes.byref(found))
            if found.length <= room:
                break
            room = found.length
        if found.kind == RESULT:
            return
        if found.kind not in _WORDS:
            raise MemoryError("out of memory")
        where = found.start if found.at < len(text) else found.end
        message = out.raw[: found.length].decode()
        unclosed = Span(found.unclosed_start, found.unclosed_end) if found.unclosed_end else None
        yield Fault(Kind(found.kind), found.at, found.start, found.end, *_find(text, where), message, unclosed)
