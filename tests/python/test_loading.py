"""Where the library is found, and what is said if it is not."""
import os
import shutil
import subprocess
import sys
import tempfile
import unittest
from pathlib import Path

import declared

PACKAGE = declared.root / "python/rota"
ASK = "import rota; print(rota.Rota.from_words([3, 7, 6]).count())"


class Loading(unittest.TestCase):
    def setUp(self):
        self.library = os.environ["ROTA_LIBRARY"]
        folder = tempfile.TemporaryDirectory()
        self.addCleanup(folder.cleanup)
        self.folder = Path(folder.name)

    def run_python(self, code, package=PACKAGE, **environment):
        """(standard output, last line of standard error) of a fresh interpreter with the package's folder on its path."""
        environment.update(PYTHONPATH=str(package.parent), PATH=os.environ["PATH"])
        done = subprocess.run([sys.executable, "-B", "-c", code], cwd=self.folder, env=environment, stdout=subprocess.PIPE, stderr=subprocess.PIPE,
                              universal_newlines=True)
        return done.stdout, done.stderr.strip().split("\n")[-1]

    def installed(self, *parts):
        """A copy of the package below the folder."""
        package = self.folder.joinpath(*parts, "rota")
        shutil.copytree(PACKAGE, package, ignore=shutil.ignore_patterns("__pycache__"))
        return package

    def test_by_path(self):
        self.assertEqual(self.run_python(ASK, ROTA_LIBRARY=self.library), ("3\n", ""))

    def test_by_relative_path(self):
        """A name without a stroke is a path too, and not sought by the loader."""
        (self.folder / "some.so").symlink_to(self.library)
        self.assertEqual(self.run_python(ASK, ROTA_LIBRARY="some.so"), ("3\n", ""))

    def test_by_the_loader(self):
        (self.folder / "librota.so.1").symlink_to(self.library)
        for other in {}, {"ROTA_LIBRARY": ""}:
            self.assertEqual(self.run_python(ASK, LD_LIBRARY_PATH=str(self.folder), **other), ("3\n", ""))

    def test_beside_the_package(self):
        package = self.installed("anywhere")
        (package / "librota.so.1").symlink_to(self.library)
        self.assertEqual(self.run_python(ASK, package), ("3\n", ""))

    def test_where_it_is_installed(self):
        for parts in ("a", "lib", "python3", "dist-packages"), ("b", "lib64", "python3.8", "site-packages"):
            package = self.installed(*parts)
            self.folder.joinpath(*parts[:2], "librota.so.1").symlink_to(self.library)
            self.assertEqual(self.run_python(ASK, package), ("3\n", ""))

    def test_nowhere_above_a_checkout(self):
        package = self.installed("checkout", "python")
        for above in self.folder, self.folder / "checkout", self.folder / "checkout/python":
            (above / "librota.so.1").symlink_to(self.library)
        self.assertEqual(self.run_python(ASK, package)[0], "")

    def test_missing(self):
        path = str(self.folder / "missing.so")
        self.assertEqual(self.run_python(ASK, ROTA_LIBRARY=path),
                         ("", f"OSError: the library of rota can't be loaded: {path}: cannot open shared object file: No such file or directory; "
                              "ROTA_LIBRARY may be set to the path of librota.so.1"))

    def test_another_library(self):
        libc = next(line.split()[-1] for line in Path("/proc/self/maps").read_text().split("\n") if "/libc" in line)
        self.assertEqual(self.run_python(ASK, ROTA_LIBRARY=libc),
                         ("", f"OSError: the library of rota can't be loaded: {libc} does not have the call rota_first_plan; "
                              "ROTA_LIBRARY may be set to the path of librota.so.1"))

    def test_loaded_at_first_use(self):
        """Without a library the package can be imported, and the next call seeks it again."""
        code = f"""import os, rota
try:
    rota.Rota.from_words([1])
except OSError:
    os.environ["ROTA_LIBRARY"] = {self.library!r}
    print(rota.Rota.from_words([1]).count(), rota.Code(9).name)
"""
        self.assertEqual(self.run_python(code, ROTA_LIBRARY="missing.so"), ("1 NO_PLAN\n", ""))
