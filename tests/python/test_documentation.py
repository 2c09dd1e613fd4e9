"""The examples in the module's documentation, and that all that is public has some."""
import doctest
import inspect
import io
import unittest

import rota


class Documentation(unittest.TestCase):
    def test_examples(self):
        told, runner, tried = io.StringIO(), doctest.DocTestRunner(verbose=False), 0
        for example in doctest.DocTestFinder().find(rota, "rota", module=False, globs=dict(vars(rota))):
            if "._" not in example.name:
                runner.run(example, out=told.write)
                tried += bool(example.examples)
        self.assertEqual(told.getvalue(), "")
        self.assertGreater(tried, 20)

    def test_everything_is_described(self):
        for name in rota.__all__:
            public = getattr(rota, name)
            self.assertTrue(inspect.getdoc(public), name)
            for part, value in vars(public).items():
                if not part.startswith("_") and not isinstance(value, (int, rota.Code)):
                    self.assertTrue(inspect.getdoc(value), f"{name}.{part}")
