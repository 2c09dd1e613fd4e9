"""Rotas, plans and refusals as values: equality, copies, and that they do not change."""
import copy
import pickle
import threading
import unittest

import cases
import rota
from asking import refusal, shown
from brute import T
from rota import Code, Plan, Refused, Rota, TextError


class Values(unittest.TestCase):
    def setUp(self):
        self.t = Rota.from_words(*T)

    def test_equality(self):
        same = Rota.from_words(iter(T[0]), list(T[1]))
        self.assertEqual((self.t, hash(self.t)), (same, hash(same)))
        for other in Rota.from_words(T[0]), Rota.from_words([7, 7, 6], T[1]), Rota.from_words([1]), T, "T", None:
            self.assertNotEqual(self.t, other)
        self.assertEqual(len({self.t, same, Rota.from_words(T[0])}), 2)

    def test_words_are_kept(self):
        """A table that is changed afterwards, or that can be read once only, is no matter."""
        opens = [3, 7, 6]
        made = Rota.from_words(opens, (word for word in (1, 0, 4)))
        opens[0] = 0
        self.assertEqual((made, made.first()), (self.t, (0, 1, 2)))

    def test_repr(self):
        for value in self.t, Rota.from_words([1]), self.t.first(), Rota.from_words([1]).first():
            again = eval(repr(value), {"Rota": Rota, "Plan": Plan})
            self.assertEqual((again, type(again), again.callouts), (value, type(value), value.callouts))
        self.assertEqual(repr(refusal(Rota.from_words([0, 3]).first)), "Refused(9, (0,), 1, 0, 'item 0 is short by 1 slot')")

    def test_copies(self):
        for value in self.t, self.t.first(), Rota.from_words([1]).first():
            pickled = [pickle.loads(pickle.dumps(value, level)) for level in range(pickle.HIGHEST_PROTOCOL + 1)]
            for again in [copy.copy(value), copy.deepcopy(value)] + pickled:
                self.assertEqual((again, type(again), again.callouts), (value, type(value), value.callouts))
        self.assertEqual(pickle.loads(pickle.dumps(self.t)).count(), 3)

    def test_copies_of_refusals(self):
        refused = refusal(Rota.from_words([1, 1, 2, 14]).first)
        again = pickle.loads(pickle.dumps(refused))
        self.assertEqual((str(again), vars(again)), (str(refused), vars(refused)))
        again = pickle.loads(pickle.dumps(TextError(2, 3, "words")))
        self.assertEqual((str(again), again.line, again.column, again.words), ("line 2, column 3: words", 2, 3, "words"))

    def test_nothing_changes(self):
        for value, name in (self.t, "n"), (self.t, "opens"), (self.t, "callouts"), (self.t, "other"), (self.t.first(), "callouts"):
            with self.assertRaises(AttributeError):
                setattr(value, name, 1)

    def test_plan(self):
        plan = self.t.fewest()
        self.assertEqual((plan, len(plan), plan[1], list(plan), plan.callouts), ((0, 2, 1), 3, 2, [0, 2, 1], 1))
        self.assertEqual((str(plan), hash(plan), plan < (1, 0, 2)), ("0 2 1 / 1", hash((0, 2, 1)), True))

    def test_kinds_of_exceptions(self):
        self.assertTrue(issubclass(TextError, ValueError))
        self.assertFalse(issubclass(Refused, (ValueError, OSError)))
        self.assertEqual((refusal(self.t.plan, 3).code, type(refusal(self.t.plan, 3).code)), (Code.NO_SUCH_PLAN, int))

    def test_public_names(self):
        for name in rota.__all__:
            self.assertEqual(getattr(rota, name).__module__, "rota")

    def test_threads(self):
        """Each has its own lister and tally over one rota."""
        shared, wanted = Rota.from_words(cases.full(6)), list(Rota.from_words(cases.full(6)).plans())
        found = []

        def work():
            plans = list(shared.plans())
            found.append(plans == wanted and [shared.number(plan) for plan in plans] == list(range(720)))

        threads = [threading.Thread(target=work) for _ in range(4)]
        for thread in threads:
            thread.start()
        for thread in threads:
            thread.join()
        self.assertEqual(found, [True] * 4)

    def test_sixty_four(self):
        every = Rota.from_words(cases.full(64), cases.full(64))
        self.assertEqual(shown(every.first()), (tuple(range(64)), 64))
        self.assertEqual(len(every.sheet(every.first())), 2080)
        self.assertEqual(Rota.from_text(every.to_text()), every)
