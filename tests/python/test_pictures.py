"""The picture: the command's bytes, and what is said if there is none."""
import os
import tempfile
import unittest
from unittest import mock
from xml.etree import ElementTree

import samples
from asking import command
from brute import T, cases
from rota import Rota

SVG = "{http://www.w3.org/2000/svg}"


def marks(root):
    """The cells of a picture, by item and slot."""
    found = [(int(use.get("data-item")), int(use.get("data-slot")), use.get("href")) for use in root.iter(SVG + "use") if use.get("data-item")]
    assert len(found) == len(set(found))
    return set(found)


def wanted(case):
    """The cells of a small rota as its plans have them."""
    usable = {(item, slot) for plan, _ in case.plans for item, slot in enumerate(plan)}
    first = set(enumerate(case.plans[0][0])) if case.plans else set()
    for item, word in enumerate(case.opens):
        for slot in samples.slots_of(word):
            look = "plan" if (item, slot) in first else "usable" if (item, slot) in usable else "unusable"
            yield item, slot, f"#{look}-callout" if case.callouts[item] >> slot & 1 else f"#{look}"


class Pictures(unittest.TestCase):
    def test_small(self):
        for case in list(cases())[:60]:
            root = ElementTree.fromstring(case.rota.svg())
            self.assertEqual(root.tag, SVG + "svg")
            self.assertEqual(marks(root), set(wanted(case)), case.rota)

    def test_samples(self):
        for name, (opens, callouts) in samples.ROTAS.items():
            rota = Rota.from_words(opens, callouts)
            cells = {(item, slot) for item, slot, _ in marks(ElementTree.fromstring(rota.svg()))}
            self.assertEqual(cells, {(item, slot) for item, word in enumerate(opens) for slot in samples.slots_of(word)}, name)
            self.assertEqual(rota.svg().encode("utf-8"), command("draw", "-", given=rota.to_file())[0], name)

    def test_on_the_path(self):
        """Without $ROTA_COMMAND, or with an empty one, the command is the PATH's rota."""
        with tempfile.TemporaryDirectory() as folder:
            os.symlink(os.environ["ROTA_COMMAND"], os.path.join(folder, "rota"))
            with mock.patch.dict(os.environ, PATH=folder, ROTA_COMMAND=""):
                self.assertIn("</svg>", Rota.from_words(*T).svg())
                del os.environ["ROTA_COMMAND"]
                self.assertIn("</svg>", Rota.from_words(*T).svg())

    def test_no_command(self):
        for path, kind, words in ("/nowhere/rota", FileNotFoundError, "No such file or directory"), ("/", PermissionError, "Permission denied"):
            with mock.patch.dict(os.environ, ROTA_COMMAND=path):
                with self.assertRaises(kind) as raised:
                    Rota.from_words(*T).svg()
            self.assertEqual(raised.exception.filename, path)
            self.assertEqual(raised.exception.strerror, f"the command rota can't be run: {words}; ROTA_COMMAND may be set to its path")

    def test_failing_command(self):
        with mock.patch.dict(os.environ, ROTA_COMMAND="/bin/false"):
            with self.assertRaises(OSError) as raised:
                Rota.from_words(*T).svg()
        self.assertEqual(str(raised.exception), "/bin/false draw ended with status 1: ")
