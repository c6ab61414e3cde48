"""What _native.c has, by ctypes, for where it wasn't compiled. A refusal is returned as its number."""

from __future__ import annotations

import ctypes
import itertools
import threading
from typing import Any, Union

_DONE = 0
_NO_ROOM = 24
_DIFFERS = 40
_FOUND = 60


class _Handle(ctypes.Structure):
    """The C struct `smithy_table`, which calls take by value."""

    _fields_ = [("pointer", ctypes.c_void_p)]


class _FormTold(ctypes.Structure):
    """The C struct `smithy_form_told`."""

    _fields_ = [("action_len", ctypes.c_size_t), ("version_len", ctypes.c_size_t), ("body_len", ctypes.c_size_t), ("pair", ctypes.c_uint64)]


def _declared(library: Any) -> Any:
    """The library with the types of its functions."""
    size, text, handle = ctypes.c_size_t, ctypes.c_char_p, ctypes.POINTER(_Handle)
    library.smithy_transcode_accept.argtypes = [text, size, handle]
    library.smithy_transcode_accept.restype = ctypes.c_uint8
    library.smithy_transcode_free.argtypes = [_Handle]
    library.smithy_transcode_free.restype = None
    library.smithy_transcode_body.argtypes = [_Handle, handle, text, size, ctypes.c_uint32, ctypes.c_uint32, text, size, text, size,
                                              text, size, ctypes.c_char_p, size, ctypes.POINTER(size)]
    library.smithy_transcode_body.restype = ctypes.c_uint8
    library.smithy_transcode_prepare.argtypes = [_Handle, handle, text, size, ctypes.c_uint32, ctypes.c_uint32, text, size, text, size,
                                                 ctypes.POINTER(size)]
    library.smithy_transcode_prepare.restype = ctypes.c_uint8
    library.smithy_transcode_task.argtypes = [_Handle, handle, size, text, size, ctypes.c_char_p, size, ctypes.POINTER(size)]
    library.smithy_transcode_task.restype = ctypes.c_uint8
    sizes, numbers = ctypes.POINTER(size), ctypes.POINTER(ctypes.c_uint8)
    library.smithy_transcode_bodies.argtypes = [_Handle, handle, text, size, ctypes.c_uint32, ctypes.c_uint32, text, size, text, size,
                                                sizes, size, text, size, ctypes.c_char_p, size, sizes, size, numbers, size, sizes]
    library.smithy_transcode_bodies.restype = ctypes.c_uint8
    library.smithy_transcode_compare.argtypes = [_Handle, handle, text, size, ctypes.c_uint32, text, size, ctypes.c_uint32, text, size,
                                                 ctypes.c_char_p, size, ctypes.POINTER(size)]
    library.smithy_transcode_compare.restype = ctypes.c_uint8
    library.smithy_transcode_findings.argtypes = [_Handle, handle, text, size, ctypes.c_uint32, text, size, sizes, size, numbers, size,
                                                  ctypes.c_char_p, size, sizes, sizes]
    library.smithy_transcode_findings.restype = ctypes.c_uint8
    library.smithy_transcode_form.argtypes = [_Handle, handle, text, size, ctypes.c_uint32, text, size, text, size, text, size,
                                              ctypes.c_char_p, size, ctypes.POINTER(_FormTold)]
    library.smithy_transcode_form.restype = ctypes.c_uint8
    return library


_library: Any = None


def load(path: bytes) -> None:
    """Loads the library from a file."""
    global _library
    _library = _declared(ctypes.CDLL(path))


def accept(text: bytes) -> Union[Table, int]:
    """The table that a text is, or the number of its refusal."""
    handle = _Handle()
    status = _library.smithy_transcode_accept(text, len(text), ctypes.byref(handle))
    return status or Table(handle)


class Table:
    """An accepted table. Its calls come one after another."""

    def __init__(self, handle: _Handle):
        self._handle = handle
        self._lock = threading.Lock()

    def task(self, root: bytes, source: int, target: int, action: bytes, version: bytes) -> Union[Task, int]:
        """A prepared task, or why it is none."""
        asked = root, len(root), source, target, action, len(action), version, len(version)
        number = ctypes.c_size_t()
        with self._lock:
            handle = self.open()
            status = _library.smithy_transcode_prepare(handle, handle, *asked, number)
        return status or Task(self, number.value, *asked)

    def compare(self, root: bytes, first_wire: int, first: bytes, second_wire: int, second: bytes) -> Union[bytes, int]:
        """The text of the first path at which the values of two bodies differ; or 0 where there is none, or why they weren't compared."""
        path_len, room_len = ctypes.c_size_t(), 256
        with self._lock:
            handle = self.open()
            while True:
                room = ctypes.create_string_buffer(room_len)
                status = _library.smithy_transcode_compare(handle, handle, root, len(root), first_wire, first, len(first), second_wire, second,
                                                           len(second), room, room_len, path_len)
                if status != _NO_ROOM:
                    return room.raw[:path_len.value] if status == _DIFFERS else status
                room_len = path_len.value

    def findings(self, root: bytes, wire: int, body: bytes) -> Union[list[tuple[bytes, int]], int]:
        """The text of each finding's path, and its kind; or why nothing was looked for."""
        count, len_, most, room_len = ctypes.c_size_t(), ctypes.c_size_t(), 16, 1024
        with self._lock:
            handle = self.open()
            while True:
                lens, kinds, room = (ctypes.c_size_t * most)(), (ctypes.c_uint8 * most)(), ctypes.create_string_buffer(room_len)
                status = _library.smithy_transcode_findings(handle, handle, root, len(root), wire, body, len(body), lens, most, kinds, most,
                                                            room, room_len, count, len_)
                if status != _NO_ROOM:
                    break
                most, room_len = max(most, count.value), max(room_len, len_.value)
        if status not in (_DONE, _FOUND):
            return status
        ends = [0, *itertools.accumulate(lens[:count.value])]
        return [(room.raw[ends[n]:ends[n + 1]], kind) for n, kind in enumerate(kinds[:count.value])]

    def form(self, root: bytes, target: int, action: bytes, version: bytes, body: bytes) -> Union[tuple[bytes, bytes, bytes], tuple[int, int]]:
        """The action and the version of a form, and the body of its value; or why it is refused, and which pair."""
        told, room_len = _FormTold(), len(body) + 256
        with self._lock:
            handle = self.open()
            while True:
                room = ctypes.create_string_buffer(room_len)
                status = _library.smithy_transcode_form(handle, handle, root, len(root), target, action, len(action), version, len(version),
                                                        body, len(body), room, room_len, told)
                if status != _NO_ROOM:
                    break
                room_len = told.action_len + told.version_len + told.body_len
        if status != _DONE:
            return status, told.pair
        begin, end = told.action_len, told.action_len + told.version_len
        return room.raw[:begin], room.raw[begin:end], room.raw[end:end + told.body_len]

    def open(self) -> _Handle:
        if not self._handle.pointer:
            raise ValueError("the table is closed")
        return self._handle

    def close(self) -> None:
        with self._lock:
            if self._handle.pointer:
                _library.smithy_transcode_free(self._handle)
                self._handle.pointer = None

    def __del__(self) -> None:
        self.close()


class Task:
    """A root of a table and two wires."""

    def __init__(self, table: Table, number: int, *asked: Any):
        self._table = table
        self._number = number
        self._asked = asked
        self._room = ctypes.create_string_buffer(4096)

    def one(self, body: bytes) -> Union[bytes, int]:
        """What a body becomes."""
        body_len = ctypes.c_size_t()
        with self._table._lock:
            handle = self._table.open()
            while True:
                room = self._room
                status = _library.smithy_transcode_task(handle, handle, self._number, body, len(body), room, len(room), body_len)
                if status == _DONE:
                    return ctypes.string_at(room, body_len.value)
                if status != _NO_ROOM:
                    return status
                self._room = ctypes.create_string_buffer(2 * body_len.value)

    def many(self, bodies: list[bytes]) -> Union[list[Union[bytes, int]], int]:
        """What the first of these bodies become, as many as there is room for; or why there is nothing to do."""
        count, whole = len(bodies), b"".join(bodies)
        ends = (ctypes.c_size_t * count)(*itertools.accumulate(map(len, bodies)))
        out_ends, statuses, done = (ctypes.c_size_t * count)(), (ctypes.c_uint8 * count)(), ctypes.c_size_t()
        room = ctypes.create_string_buffer(len(whole) + 64)
        with self._table._lock:
            handle = self._table.open()
            while True:
                status = _library.smithy_transcode_bodies(handle, handle, *self._asked, ends, count, whole, len(whole), room, len(room),
                                                          out_ends, count, statuses, count, done)
                if status not in (_DONE, _NO_ROOM):
                    return status
                if done.value or not count:
                    break
                room = ctypes.create_string_buffer(2 * len(room) + len(whole))
        places = [0, *out_ends[:done.value]]
        written = ctypes.string_at(room, places[-1])
        return [it or written[places[n]:places[n + 1]] for n, it in enumerate(statuses[:done.value])]
