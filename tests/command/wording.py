"""What the command writes for a rota's answers: plain, as JSON, and for a refusal."""
import itertools
import json
import re
from pathlib import Path

import cases
from grid import figures, grid_of, looks
from reading import Unread, rota_in, text_of
from reference import Refused
from samples import slots_of

HEADER = (Path(__file__).resolve().parents[2] / "include/rota.h").read_text()

# rota_code_text of each number, and the version.
TEXTS = re.findall(r'"(.*)"', re.search(r"texts\[\] = \{(.*?)\};", HEADER, re.DOTALL)[1])
VERSION = ".".join(re.search(rf"#define ROTA_VERSION_{part} (\d+)", HEADER)[1] for part in ("MAJOR", "MINOR", "PATCH"))

ADVICE = {
    1: "Write a line for each item, 1 to 64 of them, and in each line a character for each slot.",
    3: "The number of items or an item's open slots are wrong; make the file anew from its text.",
    4: "Open that slot to the item, or take the callout away; make the file anew from its text.",
    5: "Plans, usable slots, fewest callouts and who is short are given up to 64 items.",
    9: "These items have too few slots between them: open further slots to them.",
    12: "It was cut off or is no rota file; get it again from where it came.",
    13: "A byte was changed on its way; get it again from where it came.",
    14: "It is no rota file, or of another edition; get it again from where it came.",
}


# ---- refusals

def who(items, shortage):
    names = " and ".join(filter(None, [", ".join(map(str, items[:-1])), str(items[-1])]))
    return f"item{'s'[:len(items) > 1]} {names} {'is' if len(items) == 1 else 'are'} short by {shortage} slot{'s'[:shortage > 1]}"


def refusal(no):
    return f"refused {no.code}: {TEXTS[no.code]}{no.more}" + (f"; {who(no.items, no.shortage)}" if no.code == 9 else "")


def refusal_record(no):
    return {"refused": no.code, "text": TEXTS[no.code], "items": no.items, "shortage": no.shortage, "callouts": no.callouts}


def unless_refused(call, *arguments):
    """(answer, None) or (None, refusal)."""
    try:
        return call(*arguments), None
    except Refused as no:
        return None, no


# ---- answers: plain text and record of each command

def slots_record(words):
    return [slots_of(word) for word in words]


def plan_line(rota, plan):
    return f"{' '.join(map(str, plan))} / {rota.callouts_of(plan)}"


def plan_answer(rota, plan):
    return plan_line(rota, plan) + "\n", {"n": rota.n, "plan": plan, "callouts": rota.callouts_of(plan)}


def cell(rota, i, j):
    plan = rota.cell_plan(i, j)
    return plan_answer(rota, plan) if plan else (f"no complete plan gives item {i} slot {j}\n", {"n": rota.n, "plan": None, "callouts": None})


def plans_listed(rota, start, most):
    """Up to `most` plans from number `start` on, and whether one more follows."""
    plan = rota.first_plan() if start is None else rota.plan_at(start)
    plans = []
    while plan is not None and len(plans) < most:
        plans.append(plan)
        plan = rota.following(plan)
    return plans, plan is not None


def plan_list(rota, start=None, most=1000):
    return list_answer(rota, start or 0, *plans_listed(rota, start, most))


def list_answer(rota, start, plans, more):
    numbered = list(enumerate(plans, start))
    plain = "".join(f"{k}: {plan_line(rota, plan)}\n" for k, plan in numbered) + f"{'more' if more else 'end'} {len(plans)}\n"
    records = [{"number": str(k), "plan": plan, "callouts": rota.callouts_of(plan)} for k, plan in numbered]
    return plain, {"n": rota.n, "plans": records, "more": more}


def sheet_of(rota, plan):
    lines = ["IT    SL    C"] + [f"{i:>2}    {j:>2}    {'C' if rota.callouts[i] >> j & 1 else ''}" for i, j in enumerate(plan)]
    return "".join(f"{line:<31}\n" for line in lines)


def sheet(rota, *given, fewest=False):
    rota.must_be_plan(list(given) if given else rota.first_plan())
    plan = list(given) or (rota.best if fewest else rota.first)
    text = sheet_of(rota, plan)
    return text, {"n": rota.n, "plan": plan, "callouts": rota.callouts_of(plan), "sheet": text}


def usable(rota):
    callouts = [word & called for word, called in zip(rota.usable, rota.callouts)]
    return text_of(rota.usable, callouts), {"n": rota.n, "usable": slots_record(rota.usable)}


def short(rota):
    items, shortage = rota.short if rota.first is None else ([], 0)
    plain = who(items, shortage) if items else "nobody is short: there is a complete plan"
    return plain + "\n", {"n": rota.n, "items": items, "shortage": shortage}


def number_answer(rota, key, number, record):
    return f"{number}\n", {"n": rota.n, key: record(number)}


def price(rota, vehicles):
    cents = rota.monthly_price(vehicles)
    money = f"{cents // 100:,}.{cents % 100:02}"
    return f"{cents} cents, {money} a month\n", {"n": rota.n, "vehicles": vehicles, "cents": cents, "money": money}


def show(rota):
    items, shortage = rota.short if rota.first is None else ([], 0)
    count = unless_refused(rota.count_plans)[0]
    record = {
        "n": rota.n, "open": slots_record(rota.opens), "callout": slots_record(rota.callouts), "usable": slots_record(rota.usable),
        "first": rota.first, "count": None if count is None else str(count), "fewest": rota.callouts_of(rota.best) if rota.first else None,
        "grade": unless_refused(rota.grade)[0], "items": items, "shortage": shortage,
    }
    return grid_of(looks(rota), items) + "\n" + figure_lines(rota), record


def figure_lines(rota):
    """The figures below the grid: label and value of each, or who is short."""
    if rota.first is None:
        return f"no plan: {who(*rota.short)}\n"
    calls = rota.count_plans, lambda: rota.callouts_of(rota.best), rota.grade
    return figures(refusal(no) if no else value for value, no in map(unless_refused, calls))


def check(rota, form):
    lines, records, advised = [f"rota {form} of {rota.n} item{'s'[:rota.n > 1]}: accepted"], [], set()
    for of, call in ("first plan", rota.first_plan), ("count", rota.count_plans), ("grade", rota.grade):
        no = unless_refused(call)[1]
        lines.append(f"{of}: {refusal(no) if no else 'done'}")
        if no:
            records.append({"of": of, **refusal_record(no)})
            lines += [f"  {ADVICE[no.code]}"] * (no.code not in advised)
            advised.add(no.code)
    return "".join(line + "\n" for line in lines), {"form": form, "n": rota.n, "refused": records}


ANSWERS = {
    "first": lambda rota: plan_answer(rota, rota.first_plan()),
    "next": lambda rota, *given: plan_answer(rota, rota.next_plan(list(given))),
    "list": plan_list,
    "fewest": lambda rota, cap=2**32 - 1: plan_answer(rota, rota.fewest_callouts(cap)),
    "cell": cell,
    "at": lambda rota, k: plan_answer(rota, rota.plan_at(k)),
    "number": lambda rota, *given: number_answer(rota, "number", rota.plan_number(list(given)), str),
    "sheet": sheet,
    "usable": usable,
    "short": short,
    "count": lambda rota: number_answer(rota, "count", rota.count_plans(), str),
    "grade": lambda rota: number_answer(rota, "grade", rota.grade(), int),
    "price": price,
    "show": show,
    "text": lambda rota: (text_of(rota.opens, rota.callouts), None),
    "file": lambda rota: (cases.rota(rota.opens, rota.callouts).decode("latin-1"), None),
}


# ---- questions

class Ask:
    """A command with its arguments after FILE; options are named as in Python: start for --from."""

    def __init__(self, command, *arguments, **options):
        self.command, self.arguments, self.options = command, arguments, options

    def words(self, file, *further):
        options = [["--" + name.replace("start", "from")] + [str(value)] * (value is not True) for name, value in self.options.items()]
        return [self.command, file, *map(str, self.arguments), *itertools.chain(*options), *further]

    def answer(self, rota, form="text"):
        return check(rota, form) if self.command == "check" else ANSWERS[self.command](rota, *self.arguments, **self.options)

    def wanted(self, name, data, as_json=False, rota=None):
        """(standard output, standard error, status) for these bytes, which hold this rota if it is known."""
        def told(record):
            return json.dumps(record) + "\n" if as_json else ""
        try:
            rota = rota or rota_in(data)
            plain, record = self.answer(rota, "file" if data[:4] == b"ROTA" else "text")
            return told(record) or plain, "", int(self.command == "check" and rota.first is None)
        except Refused as no:
            advice = f"rota: {ADVICE[no.code]}\n" if self.command == "check" else ""
            return told(refusal_record(no)), f"rota: {name}: {refusal(no)}\n{advice}", 1
        except Unread as no:
            return "", f"rota: {name}: {no}\n", 3
