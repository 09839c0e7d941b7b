"""The calls of `libjp.so.0`, as `jp.h` has them."""

import ctypes
import os
import pathlib
from typing import NamedTuple, Optional, Tuple, Union

# What a call gives, and what is wrong with a faulty line: the numbers of jp.h.
OK, NOT_UTF8, OF_FILTER, FAULTY_LINE, LIMIT, OPTIONS, MEMORY = 0, 6, 16, 32, 33, 34, 35
QUERY_FAULTS = {1: "too deep", 2: "syntax", 3: "fraction", 4: "range", 5: "type"}
LINE_FAULTS = {1: "long line", 2: "unreadable", 3: "not whole", 4: "long number", 5: "long array"}
FORMS = ("nodes", "values", "texts", "raw", "lines")


class LibraryError(OSError):
    """`libjp.so.0` is not found."""


class Options(ctypes.Structure):
    """`jp_options`."""

    _fields_ = [
        ("first", ctypes.c_uint64),
        ("form", ctypes.c_uint32),
        ("documents", ctypes.c_uint32),
        ("decimals", ctypes.c_uint32),
        ("keep_going", ctypes.c_uint32),
        ("has_filter", ctypes.c_uint32),
    ]


class Report(ctypes.Structure):
    """`jp_report`."""

    _fields_ = [
        ("needed", ctypes.c_size_t),
        ("faulty", ctypes.c_uint64),
        ("line", ctypes.c_uint64),
        ("fault", ctypes.c_uint32),
    ]


class Told(NamedTuple):
    """What an answer comes to."""

    output: bytes
    faulty: int
    line: int
    line_fault: str
    fault: Optional[str]


def load() -> ctypes.CDLL:
    """The library: the file that JSONPATH_LINES_LIBRARY names, or the one beside this module, or the
    system's."""
    named, beside = os.environ.get("JSONPATH_LINES_LIBRARY"), pathlib.Path(__file__).with_name("libjp.so.0")
    name = named or (str(beside) if beside.exists() else "libjp.so.0")
    try:
        library = ctypes.CDLL(name)
    except OSError as error:
        raise LibraryError(f"{error}: scripts/library makes it, JSONPATH_LINES_LIBRARY names it") from None
    size, text = ctypes.c_size_t, ctypes.c_char_p
    library.jp_check.argtypes = [text, size, ctypes.c_uint32, ctypes.POINTER(size)]
    library.jp_check.restype = ctypes.c_uint32
    out = [ctypes.c_void_p, size]
    library.jp_explain.argtypes = [text, size, ctypes.c_uint32, *out, ctypes.POINTER(size)]
    library.jp_explain.restype = ctypes.c_uint32
    asked = [text, size, text, size, ctypes.POINTER(Options), text, size]
    library.jp_answer.argtypes = [*asked, *out, ctypes.POINTER(Report)]
    library.jp_answer.restype = ctypes.c_uint32
    return library


LIBRARY = load()


def bytes_of(data: Union[str, bytes, bytearray, memoryview]) -> bytes:
    """A text in UTF-8, or bytes as they are."""
    return data.encode() if isinstance(data, str) else bytes(data)


def form_of(output: str) -> int:
    """The number of a form."""
    if output not in FORMS:
        raise ValueError(f"output is {', '.join(FORMS[:-1])} or {FORMS[-1]}, not {output!r}")
    return FORMS.index(output)


def check(query: str, decimals: bool) -> Optional[Tuple[str, int]]:
    """What is wrong with a query, and where, or nothing."""
    text, place = query.encode(), ctypes.c_size_t()
    status = LIBRARY.jp_check(text, len(text), bool(decimals), ctypes.byref(place))
    if status == MEMORY:
        raise MemoryError
    return None if status == OK else (QUERY_FAULTS[status], place.value)


def explain(query: str, decimals: bool) -> str:
    """The lines that show where a text that is no query goes wrong."""
    text, needed, room = query.encode(), ctypes.c_size_t(), 1024
    while True:
        out = ctypes.create_string_buffer(room)
        status = LIBRARY.jp_explain(text, len(text), bool(decimals), out, room, ctypes.byref(needed))
        if status == MEMORY:
            raise MemoryError
        if needed.value <= room:
            return ctypes.string_at(out, needed.value).decode()
        room = needed.value


def answer(query: str, where: Optional[str], data: bytes, options: dict) -> Told:
    """The answer to an input, by a text that is a query."""
    text, filter = query.encode(), b"" if where is None else where.encode()
    if not 1 <= options["first"] <= 2**32 - 1:
        raise ValueError("first is a number from 1 to 4294967295")
    by = Options(**{name: int(value) for name, value in options.items()}, has_filter=int(where is not None))
    report, room = Report(), len(data) + 256
    while True:
        out = ctypes.create_string_buffer(room)
        asked = (text, len(text), filter, len(filter), ctypes.byref(by), data, len(data))
        status = LIBRARY.jp_answer(*asked, out, room, ctypes.byref(report))
        if status not in (OK, FAULTY_LINE) or report.needed <= room:
            break
        room = report.needed
    if status in (OK, FAULTY_LINE):
        output = ctypes.string_at(out, report.needed)
        return Told(output, report.faulty, report.line, LINE_FAULTS.get(report.fault, ""), None)
    if status == MEMORY:
        raise MemoryError
    if status == LIMIT:
        raise OverflowError("a line, or a document, has a number over 4294967295")
    if status - OF_FILTER in QUERY_FAULTS:
        return Told(b"", 0, 0, "", QUERY_FAULTS[status - OF_FILTER])
    raise RuntimeError(f"jp_answer gives {status}")
