"""examples/compare.py: it finds no difference, and finds one if an answer of the module is wrong."""
import contextlib
import io
import re
import runpy
import unittest
from unittest import mock

import declared
from rota import Plan, Refused, Rota

SCRIPT = str(declared.root / "examples/compare.py")
right = {name: getattr(Rota, name) for name in ("count", "first", "plans", "fewest", "usable", "short", "grade", "price", "plan", "number")}


def run():
    """What the script prints."""
    told = io.StringIO()
    with contextlib.redirect_stdout(told):
        runpy.run_path(SCRIPT)
    return told.getvalue()


def open_slots(rota):
    return tuple(tuple(slot for slot in range(rota.n) if word >> slot & 1) for word in rota.opens)


def other_refusal(call):
    """The call, refused with one item less or, of one item, short by one more."""
    def wrong(*given):
        try:
            return call(*given)
        except Refused as refused:
            items = refused.items[1:] or refused.items
            raise Refused(refused.code, items, refused.shortage + (items == refused.items)) from None
    return wrong


def grade_by_open_slots(rota):
    """Brittle by the open slots, not the usable ones."""
    count, grade = rota.count(), right["grade"](rota)
    return grade if grade != 2 or any(len(slots) == 1 for slots in open_slots(rota)) else 3 if count <= 23 else 4


def price_at(edge):
    """The column of the price list that begins with this fleet begins one vehicle later."""
    def wrong(rota, vehicles):
        if vehicles != edge:
            return right["price"](rota, vehicles)
        rate = right["price"](Rota.from_words(rota.opens), edge - 1) // (edge - 1)
        return rate * edge + 4500 * rota.fewest().callouts
    return wrong


# What the script calls it, the method, and a wrong answer that most rotas do not show.
WRONG = [
    ("count", "count", lambda rota: right["count"](rota) - (right["count"](rota) == 96)),
    ("first plan", "first", lambda rota: max(rota.plans()) if rota.count() == 2 else right["first"](rota)),
    ("first plan", "first", lambda rota: Plan(right["first"](rota), 0)),
    ("first plan", "first", other_refusal(right["first"])),
    ("all plans", "plans", lambda rota: (plan for k, plan in enumerate(right["plans"](rota)) if k < 100)),
    ("all plans", "plans", lambda rota: (plan for plan in sorted(right["plans"](rota), key=lambda plan: plan[::-1]))),
    ("fewest callouts", "fewest", lambda rota: max((plan for plan in rota.plans() if plan.callouts == right["fewest"](rota).callouts), default=None)
        if rota.count() else right["fewest"](rota)),
    ("fewest callouts", "fewest", lambda rota: rota.first()),
    ("fewest callouts", "fewest", other_refusal(right["fewest"])),
    ("usable slots", "usable", lambda rota: open_slots(rota) if rota.count() else right["usable"](rota)),
    ("who is short", "short", lambda rota: (right["short"](rota)[0], right["short"](rota)[1] + (rota.count() == 0 and rota.opens.count(0) == 2))),
    ("grade", "grade", grade_by_open_slots),
    ("grade", "grade", lambda rota: 4 if rota.count() == 23 else right["grade"](rota)),
    ("grade", "grade", lambda rota: 3 if rota.count() == 24 else right["grade"](rota)),
    ("grade", "grade", other_refusal(right["grade"])),
    ("price", "price", price_at(50)),
    ("price", "price", price_at(500)),
    ("price", "price", lambda rota, vehicles: right["price"](Rota.from_words(rota.opens), vehicles)),
    ("price", "price", other_refusal(right["price"])),
    ("plan by number", "plan", lambda rota, k: right["plan"](rota, k - 1 if k else rota.count() - 1) if k < rota.count() > 1 else right["plan"](rota, k)),
    ("plan by number", "plan", lambda rota, k: right["plan"](rota, min(k, max(rota.count() - 1, 0)))),
    ("number of plan", "number", lambda rota, plan: right["number"](rota, plan) + (rota.count() > 60)),
]


class Comparison(unittest.TestCase):
    def test_no_difference(self):
        heading, blank, columns, *rows = run().splitlines()
        self.assertEqual(heading, "10,000 rotas of 1 to 5 items, seed 1: the library and the brute force agree")
        self.assertEqual((blank, columns.split()), ("", ["asked", "answers", "refused"]))
        found = {name: (int(answers.replace(",", "")), int(refused.replace(",", "")))
                 for name, answers, refused in (re.fullmatch(r"(.*?) +([\d,]+) +([\d,]+)", row).groups() for row in rows)}
        self.assertEqual(list(found), list(dict.fromkeys(what for what, _, _ in WRONG)))
        for name, numbers in found.items():
            self.assertGreaterEqual(sum(numbers), 10_000, name)

    def test_wrong_answers(self):
        for k, (what, name, wrong) in enumerate(WRONG):
            with mock.patch.object(Rota, name, wrong), self.assertRaises(AssertionError, msg=f"wrong answer {k}, of {name}, is not noticed") as raised:
                run()
            self.assertRegex(str(raised.exception), rf"^Rota\.from_words\(.*\): {what}: the library says ")
