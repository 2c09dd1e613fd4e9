"""Every refusal that the module can meet, with its words; what is given that no call can be given."""
import json
import unittest

import cases
import declared
import samples
from asking import command, refusal
from brute import T
from rota import Refused, Rota

t = Rota.from_words(*T)
short_of_slots = Rota.from_words(*samples.ROTAS["short-of-slots"])
many = Rota.from_words(cases.full(21))
identity = tuple(range(21))
good = cases.rota(*T)

# A call, its refusal and what stands behind the text. 9's and 11's numbers are tested with the answers.
REFUSED = [
    (1, lambda: Rota.from_words([]), ""),
    (1, lambda: Rota.from_words([0] * 65), ""),
    (1, lambda: Rota.from_words([0] * 65, [0]), ""),
    (1, lambda: Rota.from_text(""), "the text has no line of cells"),
    (1, lambda: Rota.from_text("\n# nothing\n"), "the text has no line of cells"),
    (1, lambda: Rota.from_text("# a heading\n" + "." * 65), "line 2 has more than 64 cells"),
    (2, lambda: Rota.from_words([3, 7, 6], [1, 0]), ""),
    (2, lambda: Rota.from_words([3, 7, 6], [1, 0, 4, 0]), ""),
    (2, lambda: Rota.from_words([3, 7, 6], []), ""),
    (3, lambda: Rota.from_words([3, 7, 14]), ""),
    (3, lambda: Rota.from_words([1 << 63]), ""),
    (3, lambda: Rota.from_words([3, 7, 14], [4, 0, 0]), ""),
    (3, lambda: Rota.from_bytes(cases.rota([3, 7, 14])), ""),
    (4, lambda: Rota.from_words([3, 7, 6], [4, 0, 0]), ""),
    (4, lambda: Rota.from_bytes(cases.rota([3, 7, 6], [4, 0, 0])), ""),
    (5, many.count, ""),
    (5, many.grade, ""),
    (5, lambda: many.price(0), ""),
    (5, lambda: many.plan(0), ""),
    (5, lambda: many.number(identity), ""),
    (5, lambda: many.number(()), ""),
    (7, lambda: t.price(0), ""),
    (7, lambda: t.price(10_001), ""),
    (7, lambda: short_of_slots.price(2 ** 64 - 1), ""),
    (8, lambda: t.next((2, 0, 1)), ""),
    (8, lambda: t.number((0, 0, 2)), ""),
    (8, lambda: t.sheet((0, 1, 3)), ""),
    (8, lambda: short_of_slots.next((0, 1, 2, 3)), ""),
    (9, short_of_slots.first, "items 0 and 1 are short by 1 slot"),
    (9, short_of_slots.fewest, "items 0 and 1 are short by 1 slot"),
    (9, short_of_slots.grade, "items 0 and 1 are short by 1 slot"),
    (9, lambda: short_of_slots.price(1), "items 0 and 1 are short by 1 slot"),
    (9, Rota.from_words([0, 3]).first, "item 0 is short by 1 slot"),
    (9, Rota.from_words([0, 0]).first, "items 0 and 1 are short by 2 slots"),
    (9, Rota.from_words([4, 4, 15, 15, 4]).first, "items 0, 1 and 4 are short by 2 slots"),
    (9, Rota.from_words([1 << 62] + [(1 << 64) - 1 - (1 << 62)] * 62 + [1 << 62]).first, "items 0 and 63 are short by 1 slot"),
    (10, lambda: t.next((1, 0, 2)), ""),
    (11, lambda: t.fewest(0), "the fewest are 1, the cap is 0"),
    (11, lambda: Rota.from_words([1, 2, 4], [1, 2, 4]).fewest(cap=2), "the fewest are 3, the cap is 2"),
    (12, lambda: Rota.from_bytes(good + b"\0"), ""),
    (12, lambda: Rota.from_bytes(b"ROTA"), ""),
    (13, lambda: Rota.from_bytes(cases.spoiled(good, 14)), ""),
    (14, lambda: Rota.from_bytes(cases.file_of(cases.changed(cases.bodies(*T), 0, 4, 2))), ""),
    (16, lambda: t.plan(3), ""),
    (16, lambda: short_of_slots.plan(0), ""),
]
# What the module never lends: a tally or an output that is too short.
UNREACHED = {6, 15}

# No plans of T. Padded with zeros, or by their low bits, some of them would be.
NO_PLANS = [(), (0,), (1, 2), (0, 1, 2, 0), (0, 1, 2, 3), (0, 1, 2) + (0,) * 61, (256, 1, 2), (0, 257, 2), (0, 1, -254), (0, 1, 2 ** 64 + 2),
            (64, 1, 2), (255, 1, 2), (-1, 1, 2)]


class Refusals(unittest.TestCase):
    def test_codes_and_words(self):
        texts, _ = declared.texts()
        for code, call, more in REFUSED:
            refused = refusal(call)
            self.assertEqual((refused.code, refused.text), (code, texts[code]))
            self.assertEqual(str(refused), f"refused {code}: {texts[code]}" + (f"; {more}" if more else ""))
            if code not in (9, 11):
                self.assertEqual((refused.items, refused.shortage, refused.callouts), ((), 0, 0), refused)
        self.assertEqual({code for code, _, _ in REFUSED}, set(range(1, 17)) - UNREACHED)

    def test_as_the_command_says(self):
        """The same words and numbers for the same rota."""
        asked = {
            ("first",): Rota.first,
            ("fewest", "--cap", "0"): lambda rota: rota.fewest(0),
            ("count",): Rota.count,
            ("grade",): Rota.grade,
            ("price", "0"): lambda rota: rota.price(0),
            ("price", "7"): lambda rota: rota.price(7),
            ("at", "5"): lambda rota: rota.plan(5),
            ("next", *"102"): lambda rota: rota.next((1, 0, 2)),
            ("number", *"111"): lambda rota: rota.number((1, 1, 1)),
            ("sheet", *"111"): lambda rota: rota.sheet((1, 1, 1)),
        }
        given = [t, many, short_of_slots] + [Rota.from_words(opens) for opens in ([0, 0, 0], [4, 4, 15, 15, 4], [7, 6, 6])]
        told = set()
        for rota in given:
            for (name, *arguments), call in asked.items():
                if name in ("next", "number", "sheet") and rota.n != 3:
                    continue
                out, error, status = command(name, "-", *arguments, "--json", given=rota.to_file())
                try:
                    call(rota)
                except Refused as refused:
                    self.assertEqual((error, status), (f"rota: standard input: {refused}\n", 1), (rota, name))
                    self.assertEqual(json.loads(out), {"refused": refused.code, "text": refused.text, "items": list(refused.items),
                                                       "shortage": refused.shortage, "callouts": refused.callouts}, (rota, name))
                    told.add(refused.code)
                else:
                    self.assertEqual((error, status), ("", 0), (rota, name))
        self.assertEqual(told, {5, 7, 8, 9, 10, 11, 16})

    def test_no_plans(self):
        for given in NO_PLANS:
            for call in t.next, t.number, t.sheet:
                self.assertEqual(refusal(call, given).code, 8, given)
        self.assertEqual([t.next(given) for given in ([0, 1, 2], range(3), iter((0, 1, 2)), t.first(), b"\0\1\2")], [(0, 2, 1)] * 5)

    def test_padded_is_no_plan(self):
        """Zeros behind it would make a plan of it."""
        rota = Rota.from_words([4, 2, 1])
        self.assertEqual(rota.number((2, 1, 0)), 0)
        self.assertEqual(refusal(rota.number, (2, 1)).code, 8)

    def test_numbers_that_do_not_fit(self):
        calls = [lambda number: Rota.from_words([number]), lambda number: Rota.from_words([1], [number]), lambda number: t.cell(number, 0),
                 lambda number: t.cell(0, number), t.plan, t.price]
        for call in calls:
            for number in -1, 2 ** 64, 2 ** 64 + 1:
                with self.assertRaises(OverflowError) as raised:
                    call(number)
                self.assertEqual(str(raised.exception), f"{number} is no number from 0 to 18446744073709551615")
        for number in -1, 2 ** 32:
            with self.assertRaises(OverflowError) as raised:
                t.fewest(number)
            self.assertEqual(str(raised.exception), f"{number} is no number from 0 to 4294967295")

    def test_no_numbers(self):
        calls = [lambda: Rota.from_words(["3"]), lambda: Rota.from_words([1.0]), lambda: Rota.from_words(7), lambda: t.cell(0, None), lambda: t.plan("0"),
                 lambda: t.price(1.5), lambda: t.next("012"), lambda: t.sheet(None), lambda: t.fewest("1"), lambda: Rota.from_bytes("..."),
                 lambda: Rota.from_bytes(512), lambda: Rota.from_text(3)]
        for call in calls:
            self.assertRaises(TypeError, call)
