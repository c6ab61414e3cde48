"""Calls each part of the package smithy_transcode: `python3 -m unittest` in this folder."""

import doctest
import os
import pickle
import subprocess
import sys
import tempfile
import threading
import unittest

import smithy_transcode as st
from smithy_transcode.parts import Task, parts_of

TEXT = b"structure S\nmember a integer\nmember l L\nmember t timestamp\nmember x document\nlist L string sparse\n"


class Bodies(unittest.TestCase):
    def setUp(self):
        self.table = st.Table(TEXT)

    def tearDown(self):
        self.table.close()

    def test_each_wire(self):
        to_cbor = self.table.transcoder("S", st.JSON, st.CBOR)
        self.assertEqual(to_cbor(b'{"z":[1], "a" : 7}'), bytes.fromhex("bf616107ff"))
        self.assertEqual(self.table.transcoder("S", st.JSON, st.CBOR_DEFINITE)(b'{"l":["x"]}'), bytes.fromhex("bf616c816178ff"))
        self.assertEqual(self.table.transcoder("S", st.CBOR, st.JSON_NAME)(bytes.fromhex("a1616107")), b'{"a":7}')
        self.assertEqual(self.table.transcoder("S", st.JSON_INTEGRAL, st.JSON)(b'{"a":7.0}'), b'{"a":7}')
        form = self.table.transcoder("S", st.JSON, st.Query("Do", "1"))
        self.assertEqual(form(b'{"a":7}'), b"Action=Do&Version=1&a=7")

    def test_refusals(self):
        rows = [
            (st.JSON, b'{"a":7.5}', st.InvalidInput, 10),
            (st.JSON, b'{"z":' + b"[" * 128 + b"]" * 128 + b"}", st.TooDeep, 11),
            (st.JSON, b'{"x":1.5}', st.NotCarried, 13),
            (st.CBOR, b'{"x":1}', st.NotExpressible, 14),
            (st.Query("Do", "1"), b'{"l":[null]}', st.NotExpressible, 15),
            (st.CBOR, b'{"t":1.5}', st.NotExpressible, 16),
        ]
        for target, body, kind, status in rows:
            with self.subTest(body=body), self.assertRaises(kind) as caught:
                self.table.transcoder("S", st.JSON, target)(body)
            self.assertEqual(caught.exception.status, status)
        for root, kind in [("Q", st.NoSuchShape), ("L", st.NotAStructure)]:
            with self.assertRaises(kind):
                self.table.transcoder(root, st.JSON, st.JSON)(b"{}")
        with self.assertRaises(st.Refused) as caught:
            self.table.transcoder("S", st.CBOR_DEFINITE, st.JSON)(b"\xa0")
        self.assertEqual(caught.exception.status, 2)
        with self.assertRaises(st.TableRefused):
            st.Table(b"x\n")
        with self.assertRaises(st.TooWide), st.Table(b"structure S\nmember n bigInteger\n") as table:
            table.transcoder("S", st.JSON, st.JSON)(b'{"n":1' + b"0" * 39 + b"}")

    def test_long_bodies(self):
        body = b'{"l":["' + b"x" * 100_000 + b'"]}'
        self.assertEqual(self.table.transcoder("S", st.JSON, st.JSON)(body), body)

    def test_each(self):
        to_json = self.table.transcoder("S", st.JSON, st.JSON)
        answers = to_json.each([b'{"a":1}', b"{", b'{ "a":2}'])
        self.assertEqual([answers[0], answers[2]], [b'{"a":1}', b'{"a":2}'])
        self.assertIsInstance(answers[1], st.InvalidInput)
        self.assertEqual(to_json.each([]), [])
        many = [b'{"a":%d}' % n for n in range(2000)]
        self.assertEqual(to_json.each(many), many)
        long = [b'{"l":["' + b"x" * 3000 * n + b'"]}' for n in range(9)]
        self.assertEqual(to_json.each(iter(long)), long)
        with self.assertRaises(st.NoSuchShape):
            self.table.transcoder("Q", st.JSON, st.JSON).each([b"{}"])

    def test_prepared(self):
        with st.Table(b"structure T\nmember b integer\n") as other:
            with self.assertRaises(st.NoSuchShape):
                other.transcoder("S", st.JSON, st.CBOR)
            self.assertEqual(other.transcoder("T", st.JSON, st.JSON)(b'{"b" : 1}'), b'{"b":1}')
        first, second = (self.table.transcoder("S", st.JSON, st.CBOR) for _ in range(2))
        self.assertIs(first._task, second._task)
        for root, source, target, kind in [
            ("Q", st.JSON, st.JSON, st.NoSuchShape),
            ("L", st.JSON, st.JSON, st.NotAStructure),
            ("S", st.CBOR_DEFINITE, st.JSON, st.Refused),
            ("S", st.JSON, st.JSON_INTEGRAL, st.Refused),
        ]:
            with self.assertRaises(kind):
                self.table.transcoder(root, source, target)

    def test_compare(self):
        table = st.Table(b"structure S\nmember a integer\nmember n bigInteger\nmember x document\nmember m M\nmap M string\n")
        self.assertIsNone(table.compare("S", st.JSON, b'{"z":1, "a" : 7}', st.CBOR, bytes.fromhex("a1616107")))
        self.assertEqual(table.compare("S", st.JSON, b'{"a":7}', st.JSON, b'{"a":8}'), "$.a")
        key = "\u00e9" * 400
        self.assertEqual(table.compare("S", st.JSON, b'{"m":{"%s":"x"}}' % key.encode(), st.JSON, b""), "$.m")
        other = table.compare("S", st.JSON, b'{"m":{"%s":"x"}}' % key.encode(), st.JSON, b'{"m":{}}')
        self.assertEqual(other, '$.m{"%s"}' % key)
        wrong = [
            (b'{"a":7.5}', st.InvalidInput),
            (b'{"z":' + b"[" * 128 + b"]" * 128 + b"}", st.TooDeep),
            (b'{"n":1' + b"0" * 39 + b"}", st.TooWide),
            (b'{"x":1.5}', st.NotCarried),
        ]
        for n, (body, kind) in enumerate(wrong):
            for status, pair in [(10 + n, (body, b"{")), (41 + n, (b"", body))]:
                with self.subTest(status=status), self.assertRaises(kind) as caught:
                    table.compare("S", st.JSON, pair[0], st.JSON, pair[1])
                self.assertEqual(caught.exception.status, status)
        for root, first, second, kind, status in [
            ("S", st.CBOR_DEFINITE, st.JSON, st.Refused, 2),
            ("Q", st.JSON, st.CBOR_DEFINITE, st.Refused, 2),
            ("Q", st.JSON, st.JSON, st.NoSuchShape, 21),
            ("M", st.JSON, st.JSON, st.NotAStructure, 22),
        ]:
            with self.assertRaises(kind) as caught:
                table.compare(root, first, b"", second, b"")
            self.assertEqual(caught.exception.status, status)

    def test_findings(self):
        table = st.Table(b"structure S\nmember a integer\nmember n bigInteger\nmember t timestamp\nmember l L\nmember u U\n"
                         b"list L string\nunion U\nmember s S\nmember n long\n")
        rows = [
            (st.JSON, b'{"z":1}', ('${"z"}', "unknown")),
            (st.JSON, b'{"a":7.5}', ("$.a", "mismatch")),
            (st.JSON, b'{"n":1' + b"0" * 39 + b"}", ("$.n", "wide")),
            (st.JSON, b'{"t":0.0000000001}', ("$.t", "not carried")),
            (st.CBOR, bytes.fromhex("a10107"), ("$", "key")),
            (st.JSON, b'{"u":{}}', ("$.u", "union")),
            (st.JSON, b'{"l":[null]}', ("$.l[0]", "null")),
        ]
        for wire, body, finding in rows:
            with self.subTest(body=body):
                self.assertEqual(table.findings("S", wire, body), [st.Finding(*finding)])
        deep = table.findings("S", st.JSON, b'{"z":' + b"[" * 128 + b"]" * 128 + b"}")
        self.assertEqual([it.kind for it in deep], ["unknown", "deep"])
        self.assertEqual(table.findings("S", st.JSON, b'{"a":7}'), [])
        self.assertEqual(table.findings("S", st.CBOR, b""), [])
        many = table.findings("S", st.JSON, b'{"l":[%s]}' % b",".join([b"7"] * 5000))
        self.assertEqual(many, [st.Finding(f"$.l[{n}]", "mismatch") for n in range(5000)])
        for root, wire, body, kind, status in [
            ("S", st.JSON, b"{", st.NotWellFormed, 61),
            ("S", st.JSON, b"[" * 513 + b"]" * 513, st.TooNested, 62),
            ("Q", st.CBOR_DEFINITE, b"", st.Refused, 2),
            ("Q", st.JSON, b"", st.NoSuchShape, 21),
            ("L", st.JSON, b"", st.NotAStructure, 22),
        ]:
            with self.subTest(status=status), self.assertRaises(kind) as caught:
                table.findings(root, wire, body)
            self.assertEqual(caught.exception.status, status)

    def test_form(self):
        form = self.table.form("S", b"Action=Go&Version=1+2&l.member.1=x%26&a=7", st.JSON)
        self.assertEqual(form, st.Form("Go", "1 2", b'{"a":7,"l":["x&"]}'))
        self.assertEqual(self.table.form("S", b"Action=Go&Version=1&a=7", st.CBOR).body, bytes.fromhex("bf616107ff"))
        self.assertEqual(self.table.form("S", b"Action=Go&Version=1&a=7", st.Query("Do", "2")).body, b"Action=Do&Version=2&a=7")
        long = b"Action=Go&Version=1" + b"".join(b"&l.member.%d=" % n for n in range(1, 2000))
        self.assertEqual(self.table.form("S", long, st.JSON).body, b'{"l":[' + b",".join([b'""'] * 1999) + b"]}")
        for root, body, target, kind, status, text in [
            ("S", b"Action=Go&Version=1&a", st.JSON, st.BadPair, 70, "bad pair 3"),
            ("S", b"Action=Go", st.JSON, st.NotAForm, 71, "not a form"),
            ("S", b"Action=Go&Version=1&a=7&a=7", st.JSON, st.RepeatedPath, 72, "repeated path 4"),
            ("S", b"Action=Go&Version=1&a=07", st.JSON, st.NoValue, 73, "no value"),
            ("S", b"Action=Go&Version=1&t=2000-01-01T00%3A00%3A00.5Z", st.CBOR, st.NotExpressible, 16, "instant not expressible"),
            ("Q", b"", st.JSON_INTEGRAL, st.Refused, 2, "no such wire"),
            ("Q", b"", st.JSON, st.NoSuchShape, 21, "no such shape"),
            ("L", b"", st.JSON, st.NotAStructure, 22, "not a structure"),
        ]:
            with self.subTest(status=status), self.assertRaises(kind) as caught:
                self.table.form(root, body, target)
            self.assertEqual((caught.exception.status, str(caught.exception)), (status, text))

    def test_examples(self):
        self.assertEqual(doctest.testmod(st).failed, 0)

    def test_pickled_refusals(self):
        """Processes give each other refusals as values."""
        refusal = self.table.transcoder("S", st.JSON, st.JSON).each([b"{"])[0]
        copy = pickle.loads(pickle.dumps(refusal))
        self.assertEqual((type(copy), copy.status, str(copy)), (st.InvalidInput, 10, "invalid input"))

    def test_parts(self):
        """Parts of every size have each line once, and their answers are those of the whole file."""
        lines = [b'{"a":1}', b"", b"{", b'{"l":["' + b"x" * 50 + b'"]}', b'{ "a":2}']
        task = Task(TEXT, "S", st.JSON, st.CBOR)
        with tempfile.TemporaryDirectory() as room:
            path, to = os.path.join(room, "bodies"), os.path.join(room, "answers")
            for ending in (b"", b"\n"):
                with open(path, "wb") as file:
                    file.write(b"\n".join(lines) + ending)
                for size in range(1, 100):
                    answers, refused = [], 0
                    for part in parts_of(path, size):
                        refused += task.convert(part, to).refused
                        with open(to, "rb") as file:
                            answers += file.read().splitlines()
                    self.assertEqual(answers, [b"v2FhAf8=", b"v/8=", b"invalid input", answers[3], b"v2FhAv8="])
                    self.assertEqual((refused, len(answers[3])), (1, 80))
            self.assertEqual(sorted(os.listdir(room)), ["answers", "bodies"])

    def test_a_missing_library(self):
        variables = {**os.environ, "SMITHY_TRANSCODE_LIBRARY": "/nowhere/lib.so"}
        ran = subprocess.run([sys.executable, "-c", "import smithy_transcode.parts"], env=variables, capture_output=True, text=True, check=False)
        self.assertRegex(ran.stderr.splitlines()[-1], "^ImportError: /nowhere/lib.so: .*No such file.*pip install ./bindings/python")

    def test_a_closed_table(self):
        to_json = self.table.transcoder("S", st.JSON, st.JSON)
        self.table.close()
        self.table.close()
        for call in [
            lambda: to_json(b"{}"),
            lambda: self.table.compare("S", st.JSON, b"", st.JSON, b""),
            lambda: self.table.findings("S", st.JSON, b""),
            lambda: self.table.form("S", b"", st.JSON),
        ]:
            with self.assertRaises(ValueError):
                call()

    def test_threads(self):
        """Four threads with a table each, and four with one."""
        wrong = []

        def work(table, number):
            to_json = table.transcoder("S", st.JSON, st.JSON)
            for n in range(2000):
                body = b'{"a":%d}' % (number * 10_000 + n)
                if to_json(body) != body:
                    wrong.append(body)

        threads = [threading.Thread(target=work, args=(table, n)) for n, table in enumerate([st.Table(TEXT) for _ in range(4)] + [self.table] * 4)]
        for thread in threads:
            thread.start()
        for thread in threads:
            thread.join()
        self.assertEqual(wrong, [])


if __name__ == "__main__":
    unittest.main()
