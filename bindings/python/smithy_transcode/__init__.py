"""Bodies of Smithy services from wire to wire, in process, by the proved library libsmithy_transcode.so.

    table = Table(open("put_item.table", "rb").read())
    to_cbor = table.transcoder("PutItemInput", JSON, CBOR)
    body = to_cbor(b'{"TableName":"Books"}')

A table is accepted once. A transcoder answers the canonical body of the value that its input spells, or raises a `Refused`. A table
compares two bodies, tells all that is wrong with one, and reads a form.
"""

from __future__ import annotations

import itertools
import os
import pathlib
from dataclasses import dataclass
from typing import Any, Iterable, Optional, Union

try:
    from smithy_transcode import _native as _calls
except ImportError:
    from smithy_transcode import _ctypes as _calls

__all__ = [
    "BadPair",
    "CBOR",
    "CBOR_DEFINITE",
    "Finding",
    "Form",
    "InvalidInput",
    "JSON",
    "JSON_INTEGRAL",
    "JSON_NAME",
    "JSON_NAME_INTEGRAL",
    "NoSuchShape",
    "NoValue",
    "NotAForm",
    "NotAStructure",
    "NotCarried",
    "NotExpressible",
    "NotWellFormed",
    "Query",
    "Refused",
    "RepeatedPath",
    "Table",
    "TableRefused",
    "TooDeep",
    "TooNested",
    "TooWide",
    "Transcoder",
    "Wire",
]


@dataclass(frozen=True)
class Wire:
    """A form in which a value is carried."""

    number: int
    name: str


@dataclass(frozen=True)
class Query:
    """A form of AWS Query, which is written and not read."""

    action: str
    """The value of the form's pair `Action`."""
    version: str
    """The value of the form's pair `Version`."""


JSON = Wire(0, "json")
"""JSON under the names of members."""
JSON_NAME = Wire(1, "json-name")
"""JSON under the JSON names of members, where they have one."""
CBOR = Wire(2, "cbor")
"""CBOR (RFC 8949)."""
CBOR_DEFINITE = Wire(4, "cbor-definite")
"""CBOR whose lists and maps have their lengths. It is written alone: each CBOR is read as `CBOR`."""
JSON_INTEGRAL = Wire(5, "json-integral")
"""JSON whose integers may have a fraction or an exponent, as `1.0`. It is read alone."""
JSON_NAME_INTEGRAL = Wire(6, "json-name-integral")
"""The same under the JSON names of members, where they have one."""
_QUERY = 3


@dataclass(frozen=True)
class Finding:
    """What is wrong with a body at one path, or which of its entries the table doesn't know."""

    path: str
    """The text of the path, as `$.l[0]`."""
    kind: str
    """`unknown`, `mismatch`, `wide`, `not carried`, `deep`, `key`, `union` or `null`, as the command `lint` of the program writes them."""


@dataclass(frozen=True)
class Form:
    """A form of AWS Query that was read."""

    action: str
    version: str
    body: bytes
    """The canonical body of the form's value in the wanted wire."""


_KINDS = ("", "unknown", "mismatch", "wide", "not carried", "deep", "key", "union", "null")


class Refused(Exception):
    """Why there is no body, no answer or no table."""

    def __init__(self, status: int, message: str):
        """status: the number that the program would end with. message: the line that it would write."""
        super().__init__(status, message)
        self.status = status

    def __str__(self) -> str:
        return self.args[1]


class InvalidInput(Refused):
    """The input spells no value of the root."""


class TooDeep(Refused):
    """The input spells no value of the root, and may open 128 containers or more at once."""


class TooWide(Refused):
    """The input spells no value of the root, and has a big number that leaves the limits of its kind."""


class NotCarried(Refused):
    """The input spells no value of the root, and has a number that no instant or document carries."""


class NotExpressible(Refused):
    """The wanted wire can't express the value: it has a document, a null, or an instant that the wire doesn't hold."""


class TableRefused(Refused):
    """The text is no table."""


class NoSuchShape(Refused):
    """The table has no shape of the root's name."""


class NotAStructure(Refused):
    """The root is no structure."""


class NotWellFormed(Refused):
    """The body is no text of its wire."""


class TooNested(Refused):
    """More than 512 containers of the body nest."""


class BadPair(Refused):
    """A pair of the form has no `=`, a `%` without two hexadecimal digits after it, or a side that isn't UTF-8. The message has its number."""


class NotAForm(Refused):
    """The first pair of the form isn't named Action, or the second isn't named Version."""


class RepeatedPath(Refused):
    """A pair of the form has the name of an earlier one. The message has its number."""


class NoValue(Refused):
    """The pairs of the form are those of no value of the root."""


_REFUSALS = {
    2: (Refused, "no such wire"),
    10: (InvalidInput, "invalid input"),
    11: (TooDeep, "too deep"),
    12: (TooWide, "number too wide"),
    13: (NotCarried, "not carried"),
    14: (NotExpressible, "document not expressible"),
    15: (NotExpressible, "null not expressible"),
    16: (NotExpressible, "instant not expressible"),
    20: (TableRefused, "table refused"),
    21: (NoSuchShape, "no such shape"),
    22: (NotAStructure, "not a structure"),
    41: (InvalidInput, "invalid input"),
    42: (TooDeep, "too deep"),
    43: (TooWide, "number too wide"),
    44: (NotCarried, "not carried"),
    61: (NotWellFormed, "not well formed"),
    62: (TooNested, "too nested"),
    70: (BadPair, "bad pair"),
    71: (NotAForm, "not a form"),
    72: (RepeatedPath, "repeated path"),
    73: (NoValue, "no value"),
}


def _refusal(status: int, pair: int = 0) -> Refused:
    """The refusal with this number, of this pair of a form if it isn't 0. It raises a MemoryError where memory ran out."""
    if status == 8:
        raise MemoryError
    kind, message = _REFUSALS[status]
    return kind(status, f"{message} {pair}" if pair else message)


def _wanted(target: Union[Wire, Query]) -> tuple[int, bytes, bytes]:
    """The number of a wire that is written, and the action and the version of a form."""
    if isinstance(target, Query):
        return _QUERY, target.action.encode(), target.version.encode()
    return target.number, b"", b""


def _path() -> bytes:
    """The file that SMITHY_TRANSCODE_LIBRARY names, else the one beside this module, else the one that ./build leaves."""
    named = os.environ.get("SMITHY_TRANSCODE_LIBRARY")
    if named:
        return os.fsencode(named)
    folder = pathlib.Path(__file__).resolve().parent
    beside = folder / "libsmithy_transcode.so"
    return bytes(beside if beside.exists() else folder.parents[2] / beside.name)


def _load(path: bytes) -> None:
    try:
        _calls.load(path)
    except (OSError, AttributeError) as fault:
        advice = "./build makes this file, and pip install ./bindings/python installs it. SMITHY_TRANSCODE_LIBRARY may name another"
        raise ImportError(f"{fault} ({advice})", path=os.fsdecode(path)) from None


_load(_path())


class Table:
    """An accepted table of shapes. Any thread may use it: its calls come one after another."""

    def __init__(self, text: bytes):
        """text: the lines of the table."""
        accepted = _calls.accept(bytes(text))
        if isinstance(accepted, int):
            raise _refusal(accepted)
        self._accepted = accepted
        # a table keeps each task that it prepares, so that of equal ones there is one
        self._tasks: dict[tuple[str, int, int, bytes, bytes], Any] = {}

    def transcoder(self, root: str, source: Wire, target: Union[Wire, Query]) -> Transcoder:
        """What transcodes bodies of one root. It raises a `Refused` where there is no such root or wire.

        The root and the wires are looked up here and not for each body. The table keeps this as long as it is open.

        root: the name of a structure of the table. source: the wire of the bodies, which isn't CBOR_DEFINITE. target: the wire that is wanted.
        """
        return Transcoder(self, root, source, target)

    def compare(self, root: str, first_wire: Wire, first: bytes, second_wire: Wire, second: bytes) -> Optional[str]:
        """The text of the first path at which the values of two bodies differ, or None where both spell one value.

        It raises a `Refused` where a body spells no value: with a status of 10 to 13 for the first, and 41 to 44 for the second.

        >>> table = Table(b"structure S\\nmember a integer\\nmember l L\\nlist L string\\n")
        >>> table.compare("S", JSON, b'{"l":[], "a" : 7}', CBOR, bytes.fromhex("a2616107616c80"))
        >>> table.compare("S", JSON, b'{"l":["x"]}', JSON, b'{"l":["x","y"]}')
        '$.l[1]'

        root: the name of a structure of the table.
        """
        answer = self._accepted.compare(root.encode(), first_wire.number, first, second_wire.number, second)
        if isinstance(answer, int):
            if answer:
                raise _refusal(answer)
            return None
        return answer.decode()

    def findings(self, root: str, source: Wire, body: bytes) -> list[Finding]:
        """All that is wrong with a body, and each entry that the table doesn't know, in the order of the body.

        The list is empty exactly where the body spells a value of the root and has no unknown entry. It raises a `NotWellFormed` or a
        `TooNested` where nothing was looked for.

        >>> table = Table(b"structure S\\nmember a integer\\nmember l L\\nlist L string\\n")
        >>> for it in table.findings("S", JSON, b'{"z":1, "l":[null]}'):
        ...     print(it.path, it.kind)
        ${"z"} unknown
        $.l[0] null

        root: the name of a structure of the table. source: the wire of the body.
        """
        answer = self._accepted.findings(root.encode(), source.number, body)
        if isinstance(answer, int):
            raise _refusal(answer)
        return [Finding(path.decode(), _KINDS[kind]) for path, kind in answer]

    def form(self, root: str, body: bytes, target: Union[Wire, Query]) -> Form:
        """The action, the version and the value of a form of AWS Query, which raises a `Refused` where it has no plain value.

        >>> table = Table(b"structure S\\nmember a integer\\n")
        >>> table.form("S", b"Action=Do&Version=1&a=7", JSON)
        Form(action='Do', version='1', body=b'{"a":7}')

        root: the name of a structure of the table. body: the whole form. target: the wire in which the value is wanted.
        """
        answer = self._accepted.form(root.encode(), *_wanted(target), body)
        if len(answer) == 2:
            raise _refusal(*answer)
        action, version, written = answer
        return Form(action.decode(), version.decode(), written)

    def close(self) -> None:
        """Frees the table. A second call does nothing."""
        self._accepted.close()

    def __enter__(self) -> Table:
        return self

    def __exit__(self, *_: object) -> None:
        self.close()


class Transcoder:
    """Transcodes bodies of one root from one wire to another."""

    def __init__(self, table: Table, root: str, source: Wire, target: Union[Wire, Query]):
        """As `Table.transcoder`."""
        asked = root, source.number, *_wanted(target)
        task = table._tasks.get(asked)
        if task is None:
            task = table._accepted.task(root.encode(), *asked[1:])
            if isinstance(task, int):
                raise _refusal(task)
            table._tasks[asked] = task
        self._task = task

    def __call__(self, body: bytes) -> bytes:
        """The canonical body, in the wanted wire, of the value that a body spells. It raises a `Refused` where there is none.

        body: the whole body.
        """
        answer = self._task.one(body)
        if isinstance(answer, int):
            raise _refusal(answer)
        return answer

    def each(self, bodies: Iterable[bytes]) -> list[Union[bytes, Refused]]:
        """What each of several bodies becomes, in order: its body in the wanted wire, or why there is none.

        bodies: whole bodies. They are transcoded some hundred in a call, which costs less than a call for each.
        """
        answers: list[Union[bytes, Refused]] = []
        waiting = iter(bodies)
        while some := list(itertools.islice(waiting, 512)):
            while some:
                taken = self._task.many(some)
                if isinstance(taken, int):
                    raise _refusal(taken)
                answers += [_refusal(it) if isinstance(it, int) else it for it in taken]
                some = some[len(taken):]
        return answers
