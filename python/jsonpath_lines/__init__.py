"""JSONPath queries (RFC 9535) over JSON documents.

    >>> from jsonpath_lines import Query
    >>> query = Query("$..name")
    >>> for node in query.find('{"name": "shop", "hosts": [{"name": "a"}]}'):
    ...     print(node.path, node.value)
    $['name'] shop
    $['hosts'][0]['name'] a

A query is what RFC 9535 says, with its functions and filters, and nothing besides but the two functions
`xor` and `distinct`. Numbers are exact: a whole number is an `int`, any other a `Decimal`.

The work is done by the library `libjp.so.0`, whose header is `jp.h`: it is the one that the command `jp` is
made of. A call takes no lock, keeps nothing, and lets the interpreter's lock go, so threads may use one query
at once.
"""

import json
from decimal import Decimal
from typing import Any, Iterator, List, NamedTuple, Optional, Union

from . import _library
from ._library import LibraryError

__all__ = ["Answer", "InputError", "LibraryError", "Node", "Query", "QueryError"]
__version__ = "0.1.0"

Data = Union[str, bytes, bytearray, memoryview]


class QueryError(ValueError):
    """A text is no query, or no filter.

    `query` is the text, `fault` one of `too deep`, `syntax`, `fraction`, `range` and `type`, and `is_filter`
    whether it is the text of `where`. Of a query `place` is how many characters stand before the place where
    it goes wrong, `explanation` the lines that show it, and `cure` what to write, where that is known. Of a
    filter these are `None`.
    """

    def __init__(
        self,
        query: str,
        fault: str,
        place: Optional[int] = None,
        explanation: Optional[str] = None,
        is_filter: bool = False,
    ) -> None:
        self.query, self.fault, self.place, self.is_filter = query, fault, place, is_filter
        self.explanation = explanation
        lines = (explanation or "").split("\n")
        self.cure = lines[3] if len(lines) > 4 else None
        told = f"{'where' if is_filter else 'query'}: {fault}"
        super().__init__(f"{told}\n{explanation}".rstrip("\n") if explanation else told)


class InputError(ValueError):
    """A line, or a document, is faulty.

    `number` is its number, from 1 on, and `fault` one of `unreadable`, `not whole`, `long number`,
    `long array` and `long line`. `output` is the answer to what stands before it.
    """

    def __init__(self, number: int, fault: str, output: bytes) -> None:
        self.number, self.fault, self.output = number, fault, output
        super().__init__(f"line or document {number}: {fault}")


class Node(NamedTuple):
    """A value that a query selects, and where it stands."""

    #: The normalized path (RFC 9535, 2.7). Read as a query, it selects this node alone.
    path: str
    #: The value: `None`, `bool`, `int`, `Decimal`, `str`, `list` or `dict`.
    value: Any
    #: The number of its document, from 1 on.
    number: int = 1


class Answer(NamedTuple):
    """What the command `jp` writes, and how many faulty lines it passed."""

    output: bytes
    faulty: int


class Query:
    """A query. It does not change, and threads may use it at once.

    `where` is a filter, as it may stand behind `?` in a query: only documents of which it is true are
    answered, and `@` and `$` are the document. With `decimals=False` a document with a number that is no
    whole number of 64 bits is faulty, as it is for the command without `--decimals`.

    Raises `QueryError` where the text is no query, or the filter none.
    """

    def __init__(self, query: str, where: Optional[str] = None, decimals: bool = True) -> None:
        self.query, self.where, self.decimals = query, where, decimals
        # Whether the text is a query, and then whether the filter is one, by an input with nothing in it.
        if refused := _library.check(query, decimals):
            raise QueryError(query, *refused, _library.explain(query, decimals))
        if where is not None:
            self.answer(b"")

    def __repr__(self) -> str:
        where = "" if self.where is None else f", where={self.where!r}"
        return f"Query({self.query!r}{where}{'' if self.decimals else ', decimals=False'})"

    def answer(
        self,
        data: Data,
        output: str = "nodes",
        documents: bool = False,
        keep_going: bool = False,
        first: int = 1,
    ) -> Answer:
        """The answer to JSON Lines, or with `documents=True` to JSON texts one after another: the bytes that
        the command `jp` writes with these options. `output` is `nodes`, `values`, `texts`, `raw` or `lines`.

        Raises `InputError` at the first faulty line. With `keep_going=True` faulty lines are passed and
        counted, and with `nodes` each has a line in the answer.
        """
        told = _library.answer(self.query, self.where, _library.bytes_of(data), {
            "form": _library.form_of(output),
            "documents": documents,
            "decimals": self.decimals,
            "keep_going": keep_going,
            "first": first,
        })
        if told.fault is not None:
            raise QueryError(self.where or "", told.fault, is_filter=True)
        if told.line:
            raise InputError(told.line, told.line_fault, told.output)
        return Answer(told.output, told.faulty)

    def lines(self, data: Data, output: str = "nodes", **options: Any) -> bytes:
        """The bytes of `answer`."""
        return self.answer(data, output, **options).output

    def find(self, data: Data) -> List[Node]:
        """The nodes that the query selects in a JSON text, in order, with duplicates. Where several texts
        stand one after another, those of each in turn.

        Raises `InputError` where the text is no JSON.
        """
        return list(self.each(data))

    def each(self, data: Data) -> Iterator[Node]:
        """The nodes of `find`, whose values are made one after another."""
        for line in self.lines(data, documents=True).split(b"\n")[:-1]:
            number, path, value = line.split(b"\t", 2)
            yield Node(path.decode(), value_of(value), int(number))

    def values(self, data: Data) -> List[Any]:
        """The values of the nodes of `find`."""
        return [value_of(line) for line in self.lines(data, "values", documents=True).split(b"\n")[:-1]]

    def first(self, data: Data, default: Any = None) -> Any:
        """The value of the first node, or `default` where there is none."""
        return next((node.value for node in self.each(data)), default)

    def exists(self, data: Data) -> bool:
        """Whether the query selects anything."""
        return bool(self.lines(data, "lines", documents=True))


def value_of(text: bytes) -> Any:
    """The value of a JSON text."""
    return json.loads(text, parse_float=Decimal)
