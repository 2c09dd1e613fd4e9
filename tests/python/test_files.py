"""Rota files, good and damaged, from tests/cases.py's own layout; the sample files."""
import os
import tempfile
import unittest

import cases
import declared
import samples
from asking import command, refusal
from rota import Refused, Rota, TextError


class Files(unittest.TestCase):
    def test_good(self):
        for name, data, _ in cases.good():
            code, opens, callouts = cases.read(data)
            rota = Rota.from_words(opens, callouts)
            self.assertEqual(code, 0)
            self.assertEqual(rota.to_file(), data, name)
            for given in data, bytearray(data), memoryview(data):
                self.assertEqual(Rota.from_bytes(given), rota, name)

    def test_damaged(self):
        codes = set()
        for name, data, code in cases.damaged():
            if data.startswith(b"ROTA"):
                self.assertEqual(refusal(Rota.from_bytes, data).code, code, name)
                codes.add(code)
        self.assertEqual(codes, {3, 4, 12, 13, 14})

    def test_without_the_mark(self):
        """What does not begin as a rota file is read as a text, and the command says the same of it."""
        tried = 0
        for name, data, _ in cases.damaged():
            if not data.startswith(b"ROTA"):
                with self.assertRaises((TextError, Refused)) as raised:
                    Rota.from_bytes(data)
                _, error, _ = command("check", "-", given=data)
                self.assertEqual(error.split("\n")[0], f"rota: standard input: {raised.exception}", name)
                tried += 1
        self.assertGreater(tried, 5)

    def test_as_the_command_says(self):
        for name, data, _ in cases.damaged():
            if data.startswith(b"ROTA"):
                _, error, status = command("check", "-", given=data)
                self.assertEqual((error.split("\n")[0], status), (f"rota: standard input: {refusal(Rota.from_bytes, data)}", 1), name)

    def test_samples(self):
        for name, tables in samples.ROTAS.items():
            path = declared.root / "examples" / f"{name}.rota"
            for given in path, str(path):
                self.assertEqual(Rota.from_file(given), Rota.from_words(*tables), name)
        self.assertEqual(refusal(Rota.from_file, declared.root / "examples/damaged.rota").code, 13)

    def test_not_read(self):
        with tempfile.TemporaryDirectory() as folder:
            self.assertRaises(FileNotFoundError, Rota.from_file, os.path.join(folder, "missing"))
            self.assertRaises(IsADirectoryError, Rota.from_file, folder)

    def test_endless(self):
        """Of a file no more is read than decides what it is."""
        with self.assertRaises(TextError) as raised:
            Rota.from_file("/dev/zero")
        self.assertEqual(str(raised.exception), "the text has more than 1,048,576 bytes")
