"""The plan sheet as the document's columns lay it out, the sheets that it shows, and when two sheets are the same."""
from document import expect, match, number, span
from examples import PAGE, agrees, plan_of
from files import sample
from library import FILL, left
from rotas import named, padded, plain, plans, rota_t

SECTION = "Plan sheet"
FEED = "$"  # stands for the line feed in a sheet that is shown


class Columns:
    """The table of columns: what stands where in the heading and in the line of an item."""

    def __init__(self, doc):
        self.rows, follows = [], 0  # the width, and the texts of the heading and of an item's line
        for columns, heading, item in doc.table(SECTION, "columns", "in the heading", "in the line of an item"):
            first, last = span(columns)
            expect(first == follows, "columns", columns, "do not follow the row before")
            self.rows.append((last - first + 1, heading, item))
            follows = last + 1
        self.width = follows

    def part(self, width, text, i, slot, callout):
        """The bytes that a cell of the table means, right-aligned; of item i with its slot, a callout or none."""
        if text.startswith("a line feed, byte "):
            return bytes([number(*match("a line feed, byte #", text))])
        means = {"spaces": "", "the item's number": str(i), "its slot": str(slot), "`C` if this cell is a callout, else a space": "C" if callout else " "}
        if text not in means:
            (means[text],) = match("`([A-Z]+)`", text)
            expect(len(means[text]) == width, "other columns than", text, "has")
        return means[text].rjust(width).encode()

    def line(self, column, *item):
        """A line, of the heading by column 1 of the table, of an item by column 2."""
        line = b"".join(self.part(row[0], row[column], *item) for row in self.rows)
        expect(len(line) == self.width, "a line of so many bytes:", len(line))
        return line

    def sheet_of(self, rota, plan):
        """The sheet of a complete plan."""
        n, _, callouts = rota
        items = [self.line(2, i, plan[i], callouts[i] >> plan[i] & 1) for i in range(n)]
        return b"".join([self.line(1, None, None, None)] + items)

    def size(self, n):
        """How many bytes it has: a heading's and n items'."""
        return (n + 1) * self.width


def written(library, rota, plan, room=PAGE):
    """The page after the call."""
    answer = library.plan_sheet(rota, plan, room)
    agrees(answer, 0, "the sheet of %d items" % rota[0])
    expect(answer.changed == ["page"], "not the page alone is changed:", answer.changed)
    return left(answer, "page")


def tried():
    """Rotas of many sizes, with no callouts, with some and with nothing else, and for each three plans."""
    for n in (1, 2, 3, 9, 10, 11, 12, 20, 31, 63, 64):
        every = [(1 << n) - 1] * n
        for callouts in (None, sample(n)[1], every):
            for slots in (range(n), reversed(range(n)), [(i + n // 2) % n for i in range(n)]):
                yield plain(every, callouts), padded(list(slots))


def columns(doc, library):
    """Sheets of many sizes, in pages that are just long enough, longer, and short by one byte; and which of them are the same."""
    rule, compared = Columns(doc), 0
    for rota, plan in tried():
        sheet = rule.sheet_of(rota, plan)
        expect(len(sheet) == rule.size(rota[0]), "a sheet of so many bytes:", len(sheet))
        for more in (0, 1, 40):
            page = written(library, rota, plan, len(sheet) + more)
            expect(page == sheet + FILL * more, "the library writes another sheet of", list(plan[:rota[0]]), "-", page)
        agrees(library.plan_sheet(rota, plan, len(sheet) - 1), 15, "a page that is short by one byte")
        compared += 4
    return len(rule.rows), compared + same(doc, library)


def same(doc, library):
    """Two plans, of T and of rotas with other open words or callouts, have the same sheet exactly if slots and marks agree."""
    _, opens, callouts = rota_t(doc)
    rotas = [plain(words, marks) for words in (opens, [7, 7, 7]) for marks in (callouts, opens, [0, 0, 0], [1, 0, 0], [0, 1, 4], [1, 2, 0])]
    found = []
    for rota in rotas:
        for plan in plans(rota):
            marks = [rota[2][i] >> plan[i] & 1 for i in range(rota[0])]
            found.append(((plan, marks), written(library, rota, plan)))
    for says, page in found:
        for other, another in found:
            expect((says == other) == (page == another), "sheets of", says, "and", other)
    return len(found) ** 2


def shown(doc, library):
    """The sheets that the document shows, each below the line that asks for it: byte by byte the library's, and by the columns too."""
    t, found = rota_t(doc), []
    for line in doc.indented(SECTION):
        if " → " in line:
            found.append((line, []))
        else:
            expect(found and line.endswith(FEED), "no line of a sheet:", line)
            found[-1][1].append(line[:-1] + "\n")
    sheets = [(asked, "".join(lines).encode()) for asked, lines in found if lines]
    for asked, sheet in sheets:
        name, plan, size = match("([^:]*): sheet of ([0-9 ]+) → # bytes", asked)
        rota, plan = named(t, name), plan_of(plan)
        expect(len(sheet) == number(size), asked, "- the sheet has so many bytes:", len(sheet))
        expect(written(library, rota, plan) == sheet + FILL * (PAGE - len(sheet)), asked, "- the library writes", written(library, rota, plan))
        expect(Columns(doc).sheet_of(rota, plan) == sheet, asked, "- another sheet by the columns")
    return sum(len(lines) for _, lines in found), 2 * len(sheets)
