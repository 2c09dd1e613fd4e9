"""Every question over samples, worked rotas and random ones: plain and JSON, from a path and from standard input, refusals too."""
import subprocess
import time

import cases
from program import ENVIRONMENT, SECONDS, characters
from reading import rota_in
from reference import EveryCell, Searched, rota_of
from rotas import T, WORKED, file_of, form, samples, seeded, side_by_side, small, yards
from usage_lines import LONG
from wording import Ask, list_answer


class Told(Ask):
    """A question whose answer is known."""

    def __init__(self, command, *answer):
        super().__init__(command)
        self.known = answer

    def answer(self, rota, form):
        return self.known


def simple():
    names = "first", "list", "fewest", "sheet", "usable", "short", "count", "grade", "show", "check", "text", "file"
    return [Ask(name) for name in names] + [Ask("sheet", fewest=True)]


def with_numbers(source, rota):
    """Questions with numbers, most of them near the bound of what is refused."""
    n, plans = rota.n, rota.count if rota.n <= 20 else 3
    near = max(plans - 1, 0), plans, plans + 1
    yield Ask("cell", source.randrange(n + 1), source.randrange(n + 1))
    yield Ask("cell", source.randrange(n), source.randrange(n))
    yield Ask("at", source.choice((0, source.randrange(plans + 1), *near, LONG)))
    yield Ask("price", source.choice((0, 1, 49, 50, 100, 499, 500, 9999, 10000, 10001, LONG)))
    fewest = rota.callouts_of(rota.best) if rota.best else 0
    yield Ask("fewest", cap=source.choice((0, max(fewest - 1, 0), fewest, fewest + 1, 2**32 - 1)))
    most = source.choice((0, 1, 2, plans, plans + 1))
    yield Ask("list", most=min(most, 30))
    yield Ask("list", start=source.choice((0, source.randrange(plans + 1), *near, LONG)), most=source.choice((0, 1, 2, 20)))


def given(source, rota):
    """Next plan, plan number and sheet of a plan of the rota, of the last one, and of slots that are mostly no plan."""
    slots = [source.randrange(rota.n) for _ in range(rota.n)]
    mixed = source.sample(range(rota.n), rota.n)
    plans = [slots, mixed] + ([rota.first, rota.best] if rota.first else [])
    if rota.first and rota.n <= 20:
        plans += [rota.numbered(rota.count - 1), rota.numbered(source.randrange(rota.count))]
    for name in "next", "number", "sheet":
        yield Ask(name, *source.choice(plans))
        yield Ask(name, *source.choice(plans[-2:]))


def ask_all(command, source, rota, questions, data=None):
    for question in questions:
        as_json = source.random() < 0.5 and question.command not in ("text", "file")
        command.ask(question, data or form(source, rota), as_json, source.random() < 0.3, rota)


def all_of(source, rota):
    return simple() + list(with_numbers(source, rota)) + list(given(source, rota))


def agree(rota):
    """The two ways of the reference agree, as far as permutations can be tried."""
    other = Searched(rota.opens, rota.callouts)
    for name in ("first", "best", "usable", "count") + (() if rota.first else ("short",)):
        assert getattr(rota, name) == getattr(other, name), (name, rota.opens, rota.callouts)
    for k, plan in enumerate(rota.plans[:3]):
        assert other.number(plan) == k and other.numbered(k) == plan and other.following(plan) == rota.following(plan)


def try_random(command, number):
    source = seeded(command.part)
    for _ in range(number):
        rota = small(source)
        agree(rota)
        ask_all(command, source, rota, source.sample(all_of(source, rota), 14))


def few(question):
    """Not the whole list, where there are thousands of plans."""
    return Ask("list", most=5) if question.command == "list" and not question.options else question


def try_worked(command):
    """The rotas of the rules, the samples and the yards."""
    source = seeded("worked")
    for tables in WORKED:
        rota = rota_of(*tables)
        ask_all(command, source, rota, map(few, all_of(source, rota)))
    for rota in samples().values():
        ask_all(command, source, rota, map(few, all_of(source, rota)))
        ask_all(command, source, rota, map(few, simple()))
    for data in yards():
        rota = rota_in(data)
        # the plans of 64 items are too many sets of slots for the reference
        questions = all_of(source, rota) if rota.n <= 20 else [Ask("text"), Ask("file"), Ask("count"), Ask("grade"), Ask("at", 0), Ask("price", 340)]
        ask_all(command, source, rota, map(few, questions), data)


def try_large(command):
    """More than twenty items, the greatest numbers, and no plan among many items."""
    source = seeded("large")
    for n in 21, 33, 64:
        for rota in side_by_side(source, n), side_by_side(source, n, broken=True):
            ask_all(command, source, rota, map(few, all_of(source, rota)))
    whole = EveryCell(20, 7)
    last = whole.numbered(whole.count - 1)
    for question in (Ask("at", whole.count), Ask("at", whole.count - 1), Ask("number", *last), Ask("next", *last), Ask("list", start=whole.count - 2),
                     Ask("fewest", cap=6), Ask("fewest", cap=7)):
        command.ask(question, file_of(whole), rota=whole)
        command.ask(question, file_of(whole), as_json=True, piped=True, rota=whole)
    for rota in whole, EveryCell(20), EveryCell(21), EveryCell(64, 64):
        ask_all(command, source, rota, map(few, all_of(source, rota)))


def try_listings(command):
    """The whole listing of each case, and the refusals of those that are damaged."""
    for k, (name, data, lines) in enumerate(cases.cases()):
        piped, as_json = k % 2 == 0, k % 3 == 0
        if lines[-1].startswith("refused"):
            command.ask(Ask("list"), data, as_json, piped)
            command.ask(Ask(("first", "usable", "price", "show")[k % 4], *[100] * (k % 4 == 2)), data, not as_json, not piped)
            continue
        plans = [list(map(int, line.split(":")[1].split("/")[0].split())) for line in lines[1:-1]]
        rota = rota_in(data)
        plain, record = list_answer(rota, 0, plans, lines[-1].startswith("more"))
        assert [line.split(": ")[1] for line in plain.splitlines()[:-1]] == [line.split(": ")[1] for line in lines[1:-1]]
        command.ask(Told("list", plain, record), data, as_json, piped, rota)


def try_parts(command):
    """Standard input that comes in three parts."""
    data = file_of(T)
    for build in command.builds:
        with subprocess.Popen([build, "first", "-"], bufsize=0, env=ENVIRONMENT, stdin=subprocess.PIPE, stdout=subprocess.PIPE,
                              stderr=subprocess.PIPE) as running:
            try:
                for part in data[:2], data[2:300], data[300:]:
                    running.stdin.write(part)
                    time.sleep(0.05)
            except BrokenPipeError:
                pass  # it did not read all: its answer shows that
            out, err = running.communicate(timeout=SECONDS)
        command.same(["first", "-"], (characters(out), characters(err), running.returncode), Ask("first").wanted("-", data), data)


def try_all(command):
    try_worked(command)
    try_large(command)
    try_listings(command)
    try_parts(command)
    assert command.codes == {1, 3, 4, 5, 7, 8, 9, 10, 11, 12, 13, 14, 16}, command.codes  # 2, 6 and 15 are of buffers that the command lends


def try_small(command):
    try_random(command, 100)
