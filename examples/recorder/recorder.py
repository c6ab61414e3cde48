"""A mitmproxy add-on that records the calls of AWS services, one line for each request and each answer.

    mitmdump -s examples/recorder/recorder.py --set models=DATA --set tables=tables --set recording=calls.tsv

DATA is botocore's folder of models. A line has these parts, with tabs between:

    SERVICE OPERATION SIDE FORMAT OUTCOME BODY

SIDE is `input` or `output`. FORMAT is that of the message: `json`, `cbor` or `query ACTION VERSION`. OUTCOME is `recorded`, and BODY is then the
canonical JSON of the message's value. Else OUTCOME says why the body was refused, and BODY is the body as it came, in base64. The answer of a
failed call is kept in this way too, and so is a call of a REST service, with the OPERATION `-`. A line is written whole or not at all: what a
killed proxy left of one is cut off by the next. What isn't signed for a service is left out.
"""
import base64
import errno
import mmap
import os
import re

import smithy_transcode as st
from mitmproxy import ctx
from operation_tables import NoTable, OperationTables

NAME = "[A-Za-z0-9-]+"
SCOPE = re.compile(rf"Credential=[^/,]+/[^/,]+/[^/,]+/({NAME})/aws4_request")
TARGET = re.compile(rf"\w+\.({NAME})")
FORM = re.compile(rf"Action=({NAME})&Version=({NAME})(?:&|\Z)".encode())
CBOR_PATH = re.compile(rf"(?:.*/)?service/\w+/operation/({NAME})")
SOURCES = {"json": st.JSON, "cbor": st.CBOR}


class Refusal(Exception):
    """Why a body isn't recorded by its value."""


def format_of(message):
    """The format of JSON or CBOR that a message says it has, else its content type."""
    kind = message.headers.get("content-type", "").partition(";")[0].strip().lower()
    return {"application/cbor": "cbor", "application/json": "json"}.get(kind, "json" if kind.startswith("application/x-amz-json-") else kind)


def call_of(request):
    """The service, the operation and the format of a signed request, else None. The operation is "-" where neither a header, the path nor
    the form has it."""
    scope = SCOPE.search(request.headers.get("authorization", ""))
    if scope is None:
        return None
    path = CBOR_PATH.fullmatch(request.path)
    target = path or TARGET.fullmatch(request.headers.get("x-amz-target", ""))
    if target:
        return scope[1], target[1], format_of(request)
    form = FORM.match(request.get_content(strict=False) or b"")
    if form:
        return scope[1], form[1].decode(), f"query {form[1].decode()} {form[2].decode()}"
    return scope[1], "-", format_of(request)


def canonical(table, wire, body):
    """The canonical JSON of a body's value. It raises a Refusal or a Refused where it has none."""
    if wire.startswith("query "):
        return table.of_form(body)
    if wire not in SOURCES:
        raise Refusal(f"not read: {wire}")
    return table.of_body(SOURCES[wire], body)


def opened(path):
    """The file of a recording, to which lines are added. A last line without its end is cut off."""
    file = os.open(path, os.O_RDWR | os.O_CREAT | os.O_APPEND, 0o600)
    size = os.fstat(file).st_size
    if size:
        with mmap.mmap(file, size, access=mmap.ACCESS_READ) as lines:
            whole = lines.rfind(b"\n") + 1
        os.ftruncate(file, whole)
    return file


class Recorder:
    """The add-on."""

    def load(self, loader):
        loader.add_option("recording", str, "recording.tsv", "The file to which lines are added.")
        loader.add_option("models", str, "botocore/data", "The folder of models, with SERVICE/VERSION/service-2.json.")
        loader.add_option("tables", str, "tables", "The folder where the tables of operations are kept.")
        loader.add_option("smithy_table", str, "smithy_table", "The program that makes tables.")

    def running(self):
        self._tables = OperationTables(ctx.options.tables, ctx.options.models, ctx.options.smithy_table)
        self._file = opened(ctx.options.recording)

    def done(self):
        os.close(self._file)

    def request(self, flow):
        call = call_of(flow.request)
        if call:
            self._record(*call[:2], "input", call[2], flow.request)

    def response(self, flow):
        call = call_of(flow.request)
        if call:
            self._record(*call[:2], "output", format_of(flow.response), flow.response)

    def _record(self, service, operation, side, wire, message):
        body = message.get_content(strict=False) or b""
        try:
            if operation == "-":
                raise Refusal("its operation isn't known")
            if side == "output" and message.status_code >= 300:
                raise Refusal(f"status {message.status_code}")
            body, outcome = canonical(self._tables.find(service, operation, side), wire, body), "recorded"
        except (Refusal, NoTable, st.Refused) as refusal:
            body, outcome = base64.b64encode(body), str(refusal)
        head = "\t".join(re.sub(r"\s", " ", it) for it in (service, operation, side, wire, outcome))
        self._write(head.encode(errors="replace") + b"\t" + body + b"\n")

    def _write(self, line):
        """Adds a line. Where the disk is full, what was written of it is cut off."""
        before = os.fstat(self._file).st_size
        if os.write(self._file, line) < len(line):
            os.ftruncate(self._file, before)
            raise OSError(errno.ENOSPC, "the recording has no room for a line")


addons = [Recorder()]
