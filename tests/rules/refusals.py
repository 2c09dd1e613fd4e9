"""The table of refusals and the order of tests. Each call gets inputs where any two of the numbers fit, and inputs at every bound; by the document it
gives the first number of its row that fits. Whether a number fits is found out here, from the bounds that the document names.
"""
import collections
import re

from document import expect, match, number
from rotas import callouts_of, plans, word_at

FITS = {
    1: "n is # or above #",
    2: "the open or the callout table has other than n words, fewer or more",
    3: "an open bit stands at slot n or above",
    4: "a callout bit stands where the cell is not open",
    5: "n is above #",
    6: "the tally has fewer than # to the power n words",
    7: "the vehicles are # or above #",
    8: "the given plan, or that of a started lister, is no complete plan of this rota",
    9: "there is no complete plan",
    10: "no complete plan follows the given one",
    11: "the fewest callouts exceed the cap",
    12: "the file has other than #, # or # bytes",
    13: "the check of a block is wrong",
    14: "a byte of a header or of an unused place is not as laid out, n is not # to #, or the blocks are not as many as n needs",
    15: "an output other than the tally has fewer places than a success would write",
    16: "the plan number k is not below the count",
}
BRINGS = {"": (), "item set, shortage": ("items", "shortage"), "fewest number": ("callouts",)}

TABLES = {
    "`rota_first_plan`": lambda library, x: library.first_plan(x.rota),
    "`rota_next_plan`": lambda library, x: library.next_plan(x.rota, x.given),
    "`rota_list_plan`, fresh": lambda library, x: library.list_plan(x.rota, b"\0" + x.given),
    "`rota_list_plan`, started": lambda library, x: library.list_plan(x.rota, b"\1" + x.given),
    "`rota_fewest_callouts`": lambda library, x: library.fewest_callouts(x.rota, x.cap),
    "`rota_cell_plan`": lambda library, x: library.cell_plan(x.rota, *x.cell),
    "`rota_plan_sheet`": lambda library, x: library.plan_sheet(x.rota, x.given, x.page),
    "`rota_usable_slots`": lambda library, x: library.usable_slots(x.rota, x.words),
    "`rota_count_plans`": lambda library, x: library.count_plans(x.rota, x.tally),
    "`rota_grade`": lambda library, x: library.grade(x.rota, x.tally),
    "`rota_monthly_price`": lambda library, x: library.monthly_price(x.rota, x.vehicles, x.tally),
    "`rota_count_plans_untallied`": lambda library, x: library.count_plans_untallied(x.rota),
    "`rota_grade_untallied`": lambda library, x: library.grade_untallied(x.rota),
    "`rota_monthly_price_untallied`": lambda library, x: library.monthly_price_untallied(x.rota, x.vehicles),
    "`rota_plan_at`": lambda library, x: library.plan_at(x.rota, x.number, x.tally),
    "`rota_plan_number`": lambda library, x: library.plan_number(x.rota, x.given, x.tally),
    "`rota_write_file`": lambda library, x: library.write_file(x.rota, x.bytes),
}
FILES = {
    "`rota_read_file`": lambda library, x: library.read_file(x.data, 64, x.words),
    "`rota_file_first_plan`": lambda library, x: library.file_first_plan(x.data, x.given[:x.bytes]),
    "`rota_file_next_plan`": lambda library, x: library.file_next_plan(x.data, x.given[:x.bytes]),
    "`rota_file_fewest_callouts`": lambda library, x: library.file_fewest_callouts(x.data, x.given[:x.bytes], x.cap),
    "the listing program": None,
}
# Pairs that no input fits both of, and why.
NEVER_BOTH = {
    ("`rota_fewest_callouts`", 9, 11): "without a plan there is no fewest number",
    ("`rota_file_fewest_callouts`", 9, 11): "without a plan there is no fewest number",
    ("`rota_fewest_callouts`", 1, 11): "65 items have no plan in words of 64 slots, and no item has no callout",
}

# What a call may be given: a rota in tables or a file's bytes, a plan, a cap, vehicles, the room of a table in words, of a buffer in bytes and of the tally,
# a cell, its item and its slot, the bytes of a page, and a plan number.
Input = collections.namedtuple("Input", "rota data given cap vehicles words bytes tally cell page number", defaults=[(0, 1), 0, 0])


class Numbers:
    """The table of refusals: the bounds that it names, what each number brings, its name in C."""

    def __init__(self, doc):
        self.bounds, self.brings, self.names = {}, {}, {}
        for place, (code, name, fits, brings) in enumerate(doc.table("Refusal numbers", "number", "in C", "fits if", "brings")):
            expect(number(code) == place + 1 and place + 1 in FITS, "refusal", code)
            expect(brings in BRINGS, "not understood:", brings)
            self.bounds[place + 1] = tuple(number(part) for part in match(re.escape(FITS[place + 1]).replace("\\#", "#").replace("\\ ", " "), fits))
            self.brings[place + 1] = BRINGS[brings]
            self.names[match("`([A-Z_]+)`", name)[0]] = place + 1
        expect(len(self.bounds) == len(FITS), "refusals are missing")
        expect((self.bounds[1][0] + 1, self.bounds[1][1]) == self.bounds[14], "1 and 14 have other bounds of n")


def in_header(doc, header):
    """The names in C are those of the header, with these numbers."""
    with open(header) as text:
        known = {name: int(code) for name, code in re.findall(r"(ROTA_\w+) = (\d+)[, ] */\*", text.read())}
    names = Numbers(doc).names
    expect(all(known.get(name) == code for name, code in names.items()), "names in C:", names)
    return len(names), len(names)


# ---- whether a number fits

def loose(layout, data):
    """The rota in any bytes, however they are laid out."""
    n, size, each = (data[5:6] or b"\0")[0], layout.size, layout.says["words"][0]
    words = [int.from_bytes(data[at:at + 8], "little") for block in range(0, len(data), size)
             for at in range(block + layout.at["words"][0], min(block + layout.at["check"][0], len(data)), each // 2)]
    return n, tuple(words[0::2][:n]), tuple(words[1::2][:n])


def not_laid_out(layout, bounds, data):
    least, most = bounds
    n, opens, callouts = loose(layout, data)
    blocks = [data[at:at + layout.size] for at in range(0, len(data), layout.size)]
    if not least <= n <= most or layout.blocks_for(n) != len(blocks):
        return True
    return any(block[:len(body)] != body for block, body in zip(blocks, layout.bodies((n, opens, callouts))))


def check_wrong(layout, data):
    blocks = [data[at:at + layout.size] for at in range(0, len(data) - layout.size + 1, layout.size)]
    return any(layout.check(block) != block for block in blocks)


def room_wanted(layout, sheets, call, rota):
    """What a success would write, and the room for it: of n words, of a sheet's or of a file's bytes; a plan has 64."""
    if call == "`rota_plan_sheet`":
        return "page", sheets.size(rota[0])
    if call in ("`rota_usable_slots`", "`rota_read_file`"):
        return "words", rota[0]
    if call == "`rota_write_file`":
        return "bytes", 0 if rota[0] == 0 else next((size for _, most, _, size in layout.files if rota[0] <= most), layout.files[-1][3])
    return "bytes", 64


def fits(numbers_, layout, sheets, call, code, x):
    """Whether a number fits this input."""
    bounds = numbers_.bounds[code]
    rota = x.rota if x.data is None else loose(layout, x.data)
    n, opens, callouts = rota
    if code == 15:
        room, wanted = room_wanted(layout, sheets, call, rota)
        return getattr(x, room) < wanted
    if code in (12, 13, 14):
        return len(x.data) not in bounds if code == 12 else check_wrong(layout, x.data) if code == 13 else not_laid_out(layout, bounds, x.data)
    return {
        1: lambda: n == bounds[0] or n > bounds[1],
        2: lambda: len(opens) != n or len(callouts) != n,
        3: lambda: any(word >> n for word in opens),
        4: lambda: any(c & ~word_at(opens, i) for i, c in enumerate(callouts)),
        5: lambda: n > bounds[0],
        6: lambda: x.tally < bounds[0] ** n,
        7: lambda: x.vehicles == bounds[0] or x.vehicles > bounds[1],
        8: lambda: x.given[:64] not in plans(rota),
        9: lambda: not plans(rota),
        10: lambda: not any(plan > x.given[:64] for plan in plans(rota)),
        11: lambda: bool(plans(rota)) and min(callouts_of(rota, plan) for plan in plans(rota)) > x.cap,
        16: lambda: x.number >= len(plans(rota)),
    }[code]()
