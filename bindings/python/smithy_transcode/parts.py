"""Many bodies over many processes or machines: what one worker of an engine does, such as dask.distributed.

    task = Task(table, "PutItemInput", JSON, CBOR)
    bag.map_partitions(task.answers)                                      # bodies in, answers out
    client.submit(task.convert, part, f"answers/{number:06}")             # a part of a file in, a file out; in the scheduler only their names

A task can be pickled. A process accepts its table once, at the first call. Refusals are values, so no body stops a job.
"""

from __future__ import annotations

import base64
import binascii
import functools
import os
import uuid
from dataclasses import dataclass
from typing import Iterable, Iterator, Union

from smithy_transcode import CBOR, CBOR_DEFINITE, Query, Refused, Table, Transcoder, Wire

__all__ = ["Counts", "Part", "Task", "parts_of"]


@dataclass(frozen=True)
class Part:
    """The lines of a file that begin at an offset from `begin` to before `end`."""

    path: str
    begin: int
    end: int

    def lines(self) -> Iterator[bytes]:
        """The lines without their line feeds."""
        with open(self.path, "rb") as file:
            place = self.begin
            if place:
                file.seek(place - 1)
                place += len(file.readline()) - 1
            while place < self.end and (line := file.readline()):
                place += len(line)
                yield line.removesuffix(b"\n")


def parts_of(path: str, size: int = 1 << 20) -> list[Part]:
    """A file in parts of about so many bytes, in order. Each of its lines is in one of them."""
    whole = os.stat(path).st_size
    return [Part(path, begin, min(begin + size, whole)) for begin in range(0, whole, size)]


@dataclass(frozen=True)
class Counts:
    """How many bodies were answered, and how many of them refused."""

    bodies: int
    refused: int


@dataclass(frozen=True)
class Task:
    """What is asked of each body: the text of a table, a root and two wires."""

    table: bytes
    root: str
    source: Wire
    target: Union[Wire, Query]

    def answers(self, bodies: Iterable[bytes]) -> list[Union[bytes, Refused]]:
        """What each body becomes, in order, as `Transcoder.each`."""
        return _transcoder(self).each(bodies)

    def convert(self, part: Part, to: str) -> Counts:
        """Answers the lines of a part in the file `to`, as `smithy_transcode lines` does. The file is there once it is whole.

        CBOR is base64 on its line. The answer to a refused body is the text of its refusal.
        """
        answers = self.answers(map(decoded, part.lines()) if self.source == CBOR else part.lines())
        coded = self.target in (CBOR, CBOR_DEFINITE)
        # two workers may be at one part, where the first was taken for dead
        unfinished = os.path.join(os.path.dirname(to), f".part-{uuid.uuid4().hex}")
        with open(unfinished, "wb") as file:
            for it in answers:
                file.write((str(it).encode() if isinstance(it, Refused) else base64.b64encode(it) if coded else it) + b"\n")
        os.replace(unfinished, to)
        return Counts(len(answers), sum(isinstance(it, Refused) for it in answers))


@functools.lru_cache
def _transcoder(task: Task) -> Transcoder:
    return Table(task.table).transcoder(task.root, task.source, task.target)


def decoded(line: bytes) -> bytes:
    """The body of a line of base64. For another line it is a lone break, with which no CBOR begins, so it is refused as invalid."""
    try:
        return base64.b64decode(line, validate=True)
    except binascii.Error:
        return b"\xff"
