"""The order of tests: by the document a call gives the first number of its row that fits."""
from document import Wrong, expect, numbers
from examples import BLANK, agrees
from files import Layout
from inputs import ON_FILES, ON_TABLES, OUTSIDE, chosen, files_at_bounds, on_file, on_tables, tables_at_bounds
from library import FILL, left
from refusals import FILES, NEVER_BOTH, TABLES, Numbers, fits
from rotas import holding, plans, reverse
from sheets import Columns


class Order:
    """The rows, over the inputs, with what was shown."""

    def __init__(self, doc, library, program, known):
        self.numbers, self.layout, self.sheets = Numbers(doc), Layout(doc), Columns(doc)
        expect(self.numbers.bounds[14] == (self.layout.files[0][0], self.layout.files[-1][1]), "14 and the blocks have other bounds of n")
        self.library, self.program = library, program
        self.rows = {call: numbers(row) for call, row in doc.table("Order of tests", "call", "its tests, in order")}
        expect(list(self.rows) == list(TABLES) + list(FILES), "other calls in the order of tests")
        self.shown, self.compared = set(), 0
        self.known = known.setdefault((str(self.numbers.bounds), str(vars(self.layout)), str(vars(self.sheets))), {})

    def inputs(self, call):
        """Made once for each layout and bounds."""
        kind = "tables" if call in TABLES else "files"
        if kind not in self.known:
            bounds = self.numbers.bounds
            if kind == "tables":
                self.known[kind] = [on_tables(wanted) for wanted in chosen(ON_TABLES + (OUTSIDE,))] + list(tables_at_bounds(bounds))
            else:
                self.known[kind] = [on_file(self.layout, wanted) for wanted in chosen(ON_FILES)] + list(files_at_bounds(self.layout, bounds))
        return self.known[kind]

    def fitting(self, call, place, x):
        """The numbers of this call's row that fit, in the row's order."""
        found = []
        for code in self.rows[call]:
            key = (call if code == 15 else "", code, "tables" if call in TABLES else "files", place)
            if key not in self.known:
                expect(code in self.numbers.bounds, call, "tests", code)
                expect(call in FILES or code not in (12, 13, 14), call, "tests", code, "without a file")
                self.known[key] = fits(self.numbers, self.layout, self.sheets, call, code, x)
            if self.known[key]:
                found.append(code)
        return found

    def compare(self, call, x, wanted):
        """The library's answer is refused by this number, with what the document says; or it is none."""
        answer = (TABLES.get(call) or FILES[call])(self.library, x)
        if answer.code != wanted:
            raise Wrong("%s: by the document %d, the library answers %d: %s" % (call, wanted, answer.code, str(x)[:300]))
        if wanted:
            brings = self.numbers.brings[wanted]
            expect(all((value != 0) == (name in brings) for name, value in answer.numbers.items()), call, wanted, "brings", answer.numbers)
            expect(answer.plan in (None, BLANK) and not answer.changed, call, wanted, "- a plan, or changed:", answer.changed)
        elif call == "`rota_cell_plan`":
            agrees(answer, 0, "%s %d %d of %s" % (call, *x.cell, str(x.rota)[:300]), holding(plans(x.rota), x.rota[0], *x.cell) or BLANK)
        elif call in ("`rota_plan_at`", "`rota_plan_number`"):
            found, what = plans(x.rota), "%s of %s" % (call, str(x)[:300])
            if call == "`rota_plan_at`":
                agrees(answer, 0, what, found[x.number])
            else:
                agrees(answer, 0, what, number=found.index(x.given))
            tally = left(self.library.count_plans(reverse(x.rota), x.tally), "tally")
            expect(left(answer, "tally") == tally and answer.changed == ["tally"], what, "- changed:", answer.changed)
        elif call == "`rota_plan_sheet`":
            sheet = self.sheets.sheet_of(x.rota, x.given)
            expect(left(answer, "page") == sheet + FILL * (x.page - len(sheet)), call, "of", str(x)[:300], "- writes", left(answer, "page"))

    def compare_text(self, x, wanted):
        text = self.program.text(x.data)
        found = int(text.split()[1]) if text.startswith("refused ") else 0
        expect(found == wanted and (not wanted or text == "refused %d\n" % wanted), "the listing program by the document", wanted, "- writes", text[:50])

    def try_row(self, call):
        for place, x in enumerate(self.inputs(call)):
            fitting = self.fitting(call, place, x)
            wanted = fitting[0] if fitting else 0
            if call == "the listing program":
                self.compare_text(x, wanted)
            else:
                self.compare(call, x, wanted)
            self.shown.update((call, wanted, later) for later in fitting[1:])
            self.shown.add((call, wanted))
            self.compared += 1

    def try_all(self):
        for call, row in self.rows.items():
            self.try_row(call)
            expect(all((call, code) in self.shown for code in row + [0]), call, "- a number was never given")
            for place, code in enumerate(row):
                for later in row[place + 1:]:
                    both = (call, code, later) in self.shown
                    expect(both != ((call, code, later) in NEVER_BOTH), call, code, "and", later, "both fit" if both else "never fit both")
        pairs = sum(len(row) * (len(row) - 1) // 2 for row in self.rows.values())
        return pairs - len(NEVER_BOTH), self.compared


def order(doc, library, program, known):
    return Order(doc, library, program, known).try_all()
