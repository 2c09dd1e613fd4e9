"""Worked examples: `ROTA: asked → answer`, the table of worked rotas, the lister's table and the tallies'. The library computes, the document expects."""
from document import Wrong, expect, match, number, numbers, span
from library import FILL, left, words_of
from rotas import holding, named, padded, reverse, rota_t

BLANK = bytes([255] * 64)
FRESH = bytes(65)
PAGE = 2100  # bytes of a page that is longer than any sheet
FAR = (63, 64, 256, 1 << 32, 1 << 61, (1 << 64) - 1)  # no items and no slots of a small rota, though some would be with fewer bits


class Expected:
    """An answer as the document writes it: a refusal with what it brings, or what is asked for."""

    def __init__(self, text):
        first, *named_numbers = text.split(", ") if text.startswith("refused ") else [text]
        self.code = number(first[len("refused "):]) if text.startswith("refused ") else 0
        self.brings = {}
        for part in named_numbers:
            name, value = match("(items|shortage|callouts) #", part)
            self.brings[name] = number(value)
        self.text = text


def plan_of(text):
    """The 64 bytes of `0 1 2` or `0 to 63`."""
    if " to " in text:
        first, last = span(text)
        slots = list(range(first, last + 1))
    else:
        slots = [number(part) for part in text.split(" ")]
    expect(all(slot < 256 for slot in slots) and len(slots) <= 64, "no plan:", text)
    return padded(slots)


def agrees(answer, code, what, plan=None, **given):
    """The answer has this number, these other numbers and zeros else, and this plan; refused, it is blank and nothing lent is changed."""
    expect(answer.code == code, what, "- the library answers", answer.code)
    for name, value in answer.numbers.items():
        expect(value == given.get(name, 0), what, "- the library answers", name, value)
    expect(set(given) <= set(answer.numbers), what, "- no such number in the answer")
    if answer.plan is not None:
        expect(answer.plan == (plan if code == 0 else BLANK), what, "- the library gives", list(answer.plan))
    if code:
        expect(not answer.changed, what, "- refused, and changed:", answer.changed)


class Asked:
    """The questions that a document may ask of a rota; each gives how many answers were compared."""

    def __init__(self, library, file_of, sheet_of):
        self.library = library
        self.file_of = file_of  # the file of a rota by the document's layout, or None where it has none
        self.sheet_of = sheet_of  # the sheet of a rota and a plan by the document's columns

    def on_file(self, rota, call, expected, plan, given=BLANK, **cap):
        """The same question to the call on the rota's file, with a plan buffer of 70 bytes."""
        data = self.file_of(rota)
        if data is None:
            return 0
        answer = call(data, given + FILL * 6, **cap)
        agrees(answer, expected.code, expected.text)
        if not expected.code:
            expect(left(answer, "plan") == plan + FILL * 6, expected.text, "- the plan buffer holds", list(left(answer, "plan")))
        return 1

    def first_plan(self, rota, text):
        expected = Expected(text)
        plan = None if expected.code else plan_of(text)
        agrees(self.library.first_plan(rota), expected.code, text, plan, **expected.brings)
        agrees(self.library.list_plan(rota, FRESH), expected.code, text, plan, **expected.brings)
        return 2 + self.on_file(rota, self.library.file_first_plan, expected, plan)

    def next_plan(self, rota, given, text):
        expected, given = Expected(text), plan_of(given)
        plan = None if expected.code else plan_of(text)
        agrees(self.library.next_plan(rota, given), expected.code, text, plan, **expected.brings)
        agrees(self.library.list_plan(rota, b"\1" + given), expected.code, text, plan, **expected.brings)
        return 2 + self.on_file(rota, self.library.file_next_plan, expected, plan, given)

    def fewest(self, rota, cap, text):
        expected = Expected(text)
        if expected.code:
            plan, brings = None, expected.brings
        else:
            slots, callouts = match("([0-9 ]+|# to #), callouts #", text)[0::3]
            plan, brings = plan_of(slots), {"callouts": number(callouts)}
        agrees(self.library.fewest_callouts(rota, number(cap)), expected.code, text, plan, **brings)
        return 1 + self.on_file(rota, self.library.file_fewest_callouts, expected, plan, cap=number(cap))

    def plans(self, rota, text):
        """All of them: by a lister up to its first refusal, 10, or 9 if there is none; and each from the one before."""
        lister, got = FRESH, []
        answer = self.library.list_plan(rota, lister)
        while answer.code == 0:
            got.append(answer.plan)
            lister = left(answer, "lister")
            answer = self.library.list_plan(rota, lister)
        wanted = [] if text == "none" else [plan_of(part) for part in text.split(", ")]
        expect(got == wanted and answer.code == (10 if wanted else 9), text, "- the lister gives", [list(plan) for plan in got])
        for before, after in zip(wanted, wanted[1:]):
            agrees(self.library.next_plan(rota, before), 0, text, after)
        for k, plan in enumerate(wanted):
            self.both_ways(rota, k, plan, 1 << rota[0], text)
        agrees(self.library.plan_at(rota, len(wanted), 1 << rota[0]), 16, text)
        return max(1, len(wanted)) + 2 * len(wanted) + 1 + self.cells(rota, wanted, text)

    def cells(self, rota, plans, text):
        """Each cell's plan, inside of the rota and outside: the first of all its plans that holds the cell."""
        n = rota[0]
        tried = [(item, slot) for item in (*range(n + 2), *FAR) for slot in (*range(n + 2), *FAR)]
        for item, slot in tried:
            plan = holding(plans, n, item, slot) or BLANK
            agrees(self.library.cell_plan(rota, item, slot), 0, "%s: the plan of item %d and slot %d" % (text, item, slot), plan)
        return len(tried)

    def cell_plan(self, rota, item, slot, text):
        item, slot, expected = number(item), number(slot), Expected(text)
        expect(max(item, slot) < 1 << 64, "a number above 64 bits:", item, slot)
        plan = None if expected.code else BLANK if text == "blank" else plan_of(text)
        agrees(self.library.cell_plan(rota, item, slot), expected.code, text, plan, **expected.brings)
        return 1

    def sheet(self, rota, given, page, text):
        """The page's first bytes are the sheet of the plan, as many as said, and nothing else is changed."""
        expected, given, room = Expected(text), plan_of(given), PAGE if page is None else number(page)
        answer = self.library.plan_sheet(rota, given, room)
        agrees(answer, expected.code, text, **expected.brings)
        if not expected.code:
            size, sheet, written = number(*match("# bytes", text)), self.sheet_of(rota, given), left(answer, "page")
            expect(size == len(sheet) and written == sheet + FILL * (room - size), text, "- the library writes", written)
            expect(answer.changed == ["page"], text, "- changed:", answer.changed)
        return 1

    def callouts_of(self, rota, plan, text):
        """The fewest callouts where only the plan's cells are open."""
        n, opens, callouts = rota
        cells = tuple(1 << slot for slot in plan_of(plan)[:n])
        expect(all(cell & word for cell, word in zip(cells, opens)), "a cell that is not open:", plan)
        alone = (n, cells, tuple(word & cell for word, cell in zip(callouts, cells)))
        agrees(self.library.fewest_callouts(alone, 64), 0, text, plan_of(plan), callouts=number(text))
        return 1

    def usable(self, rota, text):
        answer = self.library.usable_slots(rota, rota[0] + 2)
        agrees(answer, 0, text)
        words = words_of(left(answer, "usable"))
        expect(list(words[:-2]) == numbers(text) and left(answer, "usable").endswith(FILL * 16), text, "- the library writes", words)
        cells = [(item, slot) for item in range(rota[0]) for slot in range(64)]
        for item, slot in cells:
            held = self.library.cell_plan(rota, item, slot).plan != BLANK
            expect(held == bool(words[item] >> slot & 1), text, "- not so by the plan of item", item, "and slot", slot)
        return 1 + len(cells)

    def tally(self, rota, text):
        answer = self.library.count_plans(rota, (1 << rota[0]) + 3)
        words = words_of(left(answer, "tally"))
        expect(answer.code == 0 and list(words[:-3]) == numbers(text), text, "- the library writes", words)
        expect(left(answer, "tally").endswith(FILL * 24), text, "- further words of the tally are changed")
        return 1

    def number_of(self, rota, text, call, name):
        expected = Expected(text)
        agrees(call, expected.code, text, **(expected.brings if expected.code else {name: number(text)}))
        if not expected.code:
            held = left(call, "tally")
            expect(held == left(self.library.count_plans(rota, len(held) // 8), "tally"), text, "- the tally is not the count's")
            expect(held.endswith(FILL * 16), text, "- further words of the tally are changed")
        return 1

    def both_ways(self, rota, k, plan, places, text):
        """The plan has the number k and k gives the plan; the tally is then the one that the count leaves for the items in reverse order."""
        tally = left(self.library.count_plans(reverse(rota), places), "tally")
        found, back = self.library.plan_at(rota, k, places), self.library.plan_number(rota, plan, places)
        agrees(found, 0, text, plan)
        agrees(back, 0, text, number=k)
        for answer in (found, back):
            expect(left(answer, "tally") == tally and answer.changed == ["tally"], text, "- changed:", answer.changed)
        return 2

    def plan_at(self, rota, k, places, text):
        k, expected = number(k), Expected(text)
        expect(k < 1 << 64, "a number above 64 bits:", k)
        if not expected.code:
            return self.both_ways(rota, k, plan_of(text), places, text)
        agrees(self.library.plan_at(rota, k, places), expected.code, text, **expected.brings)
        return 1

    def plan_number(self, rota, given, places, text):
        given, expected = plan_of(given), Expected(text)
        if not expected.code:
            return self.both_ways(rota, number(text), given, places, text)
        agrees(self.library.plan_number(rota, given, places), expected.code, text, **expected.brings)
        return 1

    def last_tally(self, rota, text):
        """The tally that both calls leave, the first plan given and its number."""
        places = (1 << rota[0]) + 3
        for answer in (self.library.plan_at(rota, 0, places), self.library.plan_number(rota, self.library.first_plan(rota).plan, places)):
            words = words_of(left(answer, "tally"))
            expect(answer.code == 0 and list(words[:-3]) == numbers(text), text, "- the library writes", words)
            expect(left(answer, "tally").endswith(FILL * 24), text, "- further words of the tally are changed")
        return 2

    def untallied(self, text, call, tallied, name):
        """The answer of a call without a tally, which is also that of the call with one."""
        expected = Expected(text)
        agrees(call, expected.code, text, **(expected.brings if expected.code else {name: number(text)}))
        expect(not call.changed, text, "- changed:", call.changed)
        expect((call.code, call.numbers) == (tallied.code, tallied.numbers), text, "- with a tally the library answers", tallied.code, tallied.numbers)
        return 2

    def file(self, rota, text):
        (size,) = match("# bytes", text)
        answer = self.library.write_file(rota, number(size) + 9)
        agrees(answer, 0, text, bytes=number(size))
        expect(left(answer, "file") == self.file_of(rota) + FILL * 9, text, "- the library writes other bytes")
        return 1

    def answer(self, rota, asked, text):
        """One example."""
        words = asked.split(" ")
        tally = 2 + (1 << min(rota[0], 20))
        by_name = {"plans": self.plans, "first plan": self.first_plan, "usable table": self.usable, "tally": self.tally,
                   "tally of the last items": self.last_tally, "file": self.file}
        if asked in by_name:
            return by_name[asked](rota, text)
        if asked == "count":
            return self.number_of(rota, text, self.library.count_plans(rota, tally), "count")
        if asked == "grade":
            return self.number_of(rota, text, self.library.grade(rota, tally), "grade")
        if words[0] == "price,":
            vehicles, without = match("price, # vehicles(, no tally)?", asked)
            tallied = self.library.monthly_price(rota, number(vehicles), tally)
            if without:
                return self.untallied(text, self.library.monthly_price_untallied(rota, number(vehicles)), tallied, "cents")
            return self.number_of(rota, text, tallied, "cents")
        if asked == "count, no tally":
            return self.untallied(text, self.library.count_plans_untallied(rota), self.library.count_plans(rota, tally), "count")
        if asked == "grade, no tally":
            return self.untallied(text, self.library.grade_untallied(rota), self.library.grade(rota, tally), "grade")
        if words[0] == "plan":
            k, _, places = match("plan number #(, tally of # words)?", asked)
            return self.plan_at(rota, k, tally if places is None else number(places), text)
        if words[0] == "number":
            given, _, places = match("number of ([0-9 ]+)(, tally of # words)?", asked)
            return self.plan_number(rota, given, tally if places is None else number(places), text)
        if words[0] == "fewest":
            return self.fewest(rota, *match("fewest callouts, cap #", asked), text)
        if words[0] == "next":
            return self.next_plan(rota, *match("next plan after ([0-9 ]+)", asked), text)
        if words[0] == "cell's":
            return self.cell_plan(rota, *match("cell's plan, item #, slot #", asked), text)
        if words[0] == "sheet":
            given, _, _, _, page = match("sheet of ([0-9 ]+|# to #)(, page of # bytes)?", asked)
            return self.sheet(rota, given, page, text)
        if words[0] == "callouts":
            return self.callouts_of(rota, *match("callouts of ([0-9 ]+)", asked), text)
        raise Wrong("not understood: " + asked)


def lines(doc, library, file_of, sheet_of):
    """The indented lines with an arrow, wherever they stand, and the table of worked rotas: examples, and answers compared."""
    asked, t, examples, answers = Asked(library, file_of, sheet_of), rota_t(doc), 0, 0
    for title in doc.sections:
        for line in doc.indented(title, ".* → "):
            rota, question, answer = match("([^:]*): (.*) → (.*)", line)
            answers += asked.answer(named(t, rota), question, answer)
            examples += 1
    for rota, questions, texts in doc.table("Worked rotas", "rota", "asked", "answer"):
        expect(questions.count(";") == texts.count(";"), "questions and answers of", rota)
        for question, answer in zip(questions.split("; "), texts.split("; ")):
            answers += asked.answer(named(t, rota), question, answer)
            examples += 1
    return examples, answers


def lister(doc, library):
    """The table of lister calls: each answer, and the lister after it."""
    t = rota_t(doc)
    (over, answer, began), *rows = doc.table("Lists of lister calls", "call over", "answer", "lister afterwards")
    expect(over == answer == "", "the first row is the lister as it begins")

    def state(text):
        flag, plan = match("(fresh|started), ([0-9 ]+)", text)
        return bytes([flag == "started"]) + plan_of(plan)

    held = state(began)
    expect(held[0] == 0, "a list of calls begins with a fresh lister")
    for over, text, after in rows:
        expected = Expected(text)
        found = library.list_plan(named(t, over), held)
        agrees(found, expected.code, over + ": " + text, None if expected.code else plan_of(text), **expected.brings)
        held = left(found, "lister")
        expect(held == state(after), over, "- the lister is not", after)
    return len(rows), 2 * len(rows)

