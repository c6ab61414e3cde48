"""The tables of operations, which smithy_table makes from the models of services."""
import functools
import gzip
import os
import pathlib
import re
import subprocess
import tempfile

import smithy_transcode as st


class NoTable(Exception):
    """Why an operation has no table."""


class OperationTable:
    """The table of an operation's input or output, whose first structure is the root."""

    def __init__(self, text):
        root = re.search(rb"^structure (\S+)", text, re.MULTILINE)
        if root is None:
            raise NoTable("the operation has no structure")
        self._root = root[1].decode()
        try:
            self._table = st.Table(text)
        except st.TableRefused as refusal:
            raise NoTable(str(refusal)) from None

    def of_body(self, source, body):
        """The canonical JSON of the value of a body in JSON or CBOR."""
        return self._table.transcoder(self._root, source, st.JSON)(body)

    def of_form(self, form):
        """The canonical JSON of the value of an AWS Query form."""
        return self._table.form(self._root, form, st.JSON).body

    def compare(self, first, second):
        """The first path at which two bodies in JSON differ, or None."""
        return self._table.compare(self._root, st.JSON, first, st.JSON, second)


class OperationTables:
    """Tables in the files SERVICE/OPERATION.input and SERVICE/OPERATION.output of a folder. What isn't there is made.

    folder: where the tables are. models: a folder as botocore/data, with SERVICE/VERSION/service-2.json, which may be compressed.
    smithy_table: the program.
    """

    def __init__(self, folder, models, smithy_table):
        self._folder = pathlib.Path(folder)
        self._models = pathlib.Path(models)
        self._program = smithy_table

    @functools.lru_cache
    def find(self, service, operation, side):
        """The table of one side of an operation, `input` or `output`. It raises a NoTable where there is none."""
        file = self._folder / service / f"{operation}.{side}"
        if not file.exists():
            self._make(file, service, operation, side)
        return OperationTable(file.read_bytes())

    def _make(self, file, service, operation, side):
        models = sorted(self._models.glob(f"{service}/*/service-2.json*"))
        if not models:
            raise NoTable("the service has no model")
        file.parent.mkdir(parents=True, exist_ok=True)
        with tempfile.TemporaryDirectory(dir=file.parent) as room:
            model = pathlib.Path(room, "model.json")
            text = models[-1].read_bytes()
            model.write_bytes(gzip.decompress(text) if models[-1].suffix == ".gz" else text)
            try:
                made = subprocess.run([self._program, "partial", side, model, operation], capture_output=True, check=False)
            except OSError as error:
                raise NoTable(str(error)) from None
            if made.returncode != 0:
                raise NoTable(made.stderr.decode(errors="replace").splitlines()[-1])
            whole = pathlib.Path(room, "table")
            whole.write_bytes(made.stdout)
            os.replace(whole, file)
