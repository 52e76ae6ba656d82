"""The calls of `include/cedar_formatter.h`, by ctypes."""
import ctypes
import os

RESULT, NO_ROOM = 0, 10
NAME = "libcedar_formatter.so.2"

_HERE = os.path.dirname(os.path.realpath(__file__))
# In the package; the repository's, from bindings/python; and PREFIX/lib, from PREFIX/share/noblesilk/python.
_PLACES = (
    os.path.join(_HERE, NAME),
    os.path.join(_HERE, "..", "..", "out", "libcedar_formatter.so"),
    os.path.join(_HERE, "..", "..", "..", "..", "lib", NAME),
)


class Answer(ctypes.Structure):
    _fields_ = [("kind", ctypes.c_uint32), ("number", ctypes.c_size_t)]


class PlaceAnswer(ctypes.Structure):
    _fields_ = [("kind", ctypes.c_uint32), ("line", ctypes.c_size_t), ("column", ctypes.c_size_t)]


class FaultAnswer(ctypes.Structure):
    _bytes = "at", "start", "end", "unclosed_start", "unclosed_end", "next", "length"
    _fields_ = [("kind", ctypes.c_uint32), *((it, ctypes.c_size_t) for it in _bytes)]


def load() -> ctypes.CDLL:
    """The library, with the types of its calls; raises an ImportError if there is none."""
    named = os.environ.get("CEDAR_FORMATTER")
    file = named or next(filter(os.path.exists, _PLACES), None)
    if not file:
        advice = "run bindings/build in the repository, or set CEDAR_FORMATTER to its path"
        raise ImportError(f"cedar_formatter: {NAME} is not found; {advice}")
    try:
        library = ctypes.CDLL(os.path.abspath(file))
        _declare(library)
    except (OSError, AttributeError) as error:
        what = "CEDAR_FORMATTER names a library that" if named else "its library"
        raise ImportError(f"cedar_formatter: {what} cannot be loaded: {error}") from None
    return library


def _declare(library: ctypes.CDLL) -> None:
    text, layout = [ctypes.c_char_p, ctypes.c_size_t], [ctypes.c_size_t, ctypes.c_ssize_t]
    answer = ctypes.POINTER(Answer)
    library.cedar_format.argtypes = [*text, *layout, ctypes.c_char_p, ctypes.c_size_t, answer]
    library.cedar_is_formatted.argtypes = [*text, *layout, answer]
    library.cedar_same_layout.argtypes = [*text, *text, answer]
    library.cedar_place.argtypes = [*text, ctypes.c_size_t, ctypes.POINTER(PlaceAnswer)]
    library.cedar_next_fault.argtypes = [*text, ctypes.c_size_t, ctypes.c_char_p, ctypes.c_size_t, ctypes.POINTER(FaultAnswer)]
    library.cedar_version.argtypes = [ctypes.c_char_p, ctypes.c_size_t, answer]
    for name in ("format", "is_formatted", "same_layout", "place", "next_fault", "version"):
        getattr(library, f"cedar_{name}").restype = None
