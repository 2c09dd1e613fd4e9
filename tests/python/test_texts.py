"""The text form: what is accepted, and what is said of what is not, by the rules and as the command says it."""
import os
import tempfile
import unittest

import texts
from asking import command
from rota import Refused, Rota, TextError


def said(call, given):
    """The rota, or what is raised, as words."""
    try:
        return call(given)
    except (TextError, Refused) as error:
        return str(error)


class Texts(unittest.TestCase):
    def test_known(self):
        for text, wanted in texts.KNOWN:
            wanted = wanted if isinstance(wanted, str) else Rota.from_words(*wanted)
            for call in Rota.from_text, Rota.from_bytes:
                self.assertEqual(said(call, text), wanted, text[:80])

    def test_as_str(self):
        for text, wanted in texts.KNOWN:
            try:
                decoded = text.decode("utf-8")
            except UnicodeDecodeError:
                continue
            self.assertEqual(said(Rota.from_text, decoded), said(Rota.from_text, text), text[:80])
        self.assertEqual(said(Rota.from_text, "o # \ud800"), Rota.from_words([1]))
        self.assertEqual(said(Rota.from_text, "\ud800"), f"line 1, column 1: byte ed {texts.NO_CELL}")

    def test_line_and_column(self):
        places = 0
        for text, wanted in texts.KNOWN:
            if isinstance(wanted, str) and not wanted.startswith("refused"):
                with self.assertRaises(TextError) as raised:
                    Rota.from_text(text)
                error = raised.exception
                place = f"line {error.line}, column {error.column}: " if error.line else ""
                self.assertEqual((place + error.words, bool(error.column)), (wanted, bool(error.line)))
                places += bool(place)
        self.assertGreater(places, 30)

    def test_a_text_is_no_file(self):
        """from_text takes no rota file."""
        self.assertEqual(said(Rota.from_text, Rota.from_words([1]).to_file()), f"line 1, column 1: 'R' {texts.NO_CELL}")

    def test_from_file(self):
        with tempfile.TemporaryDirectory() as folder:
            path = os.path.join(folder, "text")
            for text, wanted in texts.KNOWN:
                with open(path, "wb") as file:
                    file.write(text)
                self.assertEqual(said(Rota.from_file, path), said(Rota.from_bytes, text), text[:80])


class Command(unittest.TestCase):
    """The command accepts the same texts as the same rotas, and says the same of the others."""

    def compare(self, text):
        given = said(Rota.from_bytes, text)
        out, error, status = command("check", "-", given=text)
        if isinstance(given, str):
            self.assertEqual(error.split("\n")[0], f"rota: standard input: {given}", text[:200])
            self.assertEqual((out, status), (b"", 1 if given.startswith("refused") else 3), text[:200])
            return given
        self.assertEqual((error, status), ("", 0 if given.short() == ((), 0) else 1), text[:200])
        self.assertEqual(command("file", "-", given=text), (given.to_file(), "", 0), text[:200])
        self.assertEqual(command("text", "-", given=text), (given.to_text().encode(), "", 0), text[:200])
        return "accepted"

    def test_known(self):
        for text, _ in texts.KNOWN:
            self.compare(text)

    def test_random(self):
        kinds = {"accepted": 0, "is no cell": 0, "fewer lines of cells": 0, "more lines of cells": 0, "more cells than": 0, "fewer cells than": 0,
                 "nothing but a comment": 0, "no line of cells": 0, "more than 64 cells": 0}
        for text in texts.some(400):
            words = self.compare(text)
            for kind in kinds:
                kinds[kind] += kind in words
        self.assertGreater(min(kinds.values()), 4, kinds)
