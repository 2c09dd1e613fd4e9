"""Given plans: as slots, as a printed line with its stroke, as a sheet; and those that are none."""
from reading import MARK, MOST_BYTES, Unread, plan_in
from reference import EveryCell, Tried
from rotas import T, file_of, form, seeded, side_by_side, small, tidy
from usage_lines import no_number, wrongly
from wording import Ask, plan_line, sheet_of

NAMES = "next", "number", "sheet"
SHEET = b"IT SL C\n0 0 C\n1 2\n2 1\n"


def ask_slots(command, name, data, words, slots, as_json=False):
    """Slots in these words, options among them."""
    file = command.write(data)
    command.expect([name, file, *words], Ask(name, *slots).wanted(file, data, as_json), shown=data)


def ask_sheet(command, name, data, sheet, as_json=False, piped="", rota=None):
    """A sheet; piped says which of the two is at standard input."""
    file = "-" if piped == "file" else command.write(data)
    page = "-" if piped == "sheet" else command.write(sheet)
    rota = rota or T
    try:
        wanted = Ask(name, *plan_in(sheet, rota.n)).wanted("standard input" if file == "-" else file, data, as_json, rota)
    except Unread as no:
        wanted = "", f"rota: {'standard input' if page == '-' else page}: {no}\n", 3
    words = [name, file, *(["--sheet", page] if len(sheet) % 2 else [f"--sheet={page}"]), *["--json"] * as_json]
    command.expect(words, wanted, {"file": data, "sheet": sheet}.get(piped), sheet)


# ---- slots

def try_slots(command):
    data = tidy(T)
    for name in NAMES:
        for plan in T.plans:
            printed = plan_line(T, plan).split()
            slots = printed[:3]
            for words in (slots, printed, ["--", *slots], ["--", *printed], [*slots, "/"], [*slots, "/", "x", "99", "", "-", "/"],
                          ["00" + slots[0], "0" * 30 + slots[1], slots[2]]):
                ask_slots(command, name, data, words, plan)
            for words in (["--json", *printed], [*printed, "--json"], [slots[0], "--json", *slots[1:]], ["--json", "--", *slots],
                          [*slots, "/", "--json", "2"]):
                ask_slots(command, name, data, words, plan, True)
        for plan in [0, 0, 2], [2, 0, 1], [0, 1, 3], [0, 1, 63], [63, 63, 63], [1, 2, 0]:
            ask_slots(command, name, data, map(str, plan), plan, False)
            ask_slots(command, name, data, ["--json", *map(str, plan)], plan, True)


def try_number_of_slots(command):
    """The rota is read first, and what is wrong with it comes first."""
    whole = EveryCell(64)
    for name in NAMES:
        for rota, numbers in (T, (1, 2, 4, 63, 64, 65, 66, 200)), (Tried([1]), (2, 64, 65)), (whole, (1, 63, 65, 1000)):
            data = tidy(rota) if rota.n < 64 else file_of(rota)
            file = command.write(data)
            for number in numbers:
                words = wrongly(name, f"a slot for each item is wanted: {rota.n}, not {number}")
                command.expect([name, file, *["0"] * number], words)
                command.expect([name, file, *["0"] * number, "/", "1", "--json"], words)
        ask_slots(command, name, file_of(whole), map(str, reversed(whole.first)), list(reversed(whole.first)))
        for wrong in b"Co.\noo\n", b"x", b"", b"ROTA", file_of(Tried([3])):
            ask_slots(command, name, wrong, ["0", "1"], [0, 1])


def try_no_slots(command):
    """Nothing is read: there is no such file."""
    for name in NAMES:
        for word in "64", "100", "+1", "1x", "", " 1", "1 ", "0x1", "1.", "2/2", "1,2", "-", "4294967296", "18446744073709551616", "9" * 50:
            command.expect([name, "missing", "0", word, "2"], wrongly(name, no_number(word, 63)))
            command.expect([name, "missing", word], wrongly(name, no_number(word, 63)))
        command.expect([name, "missing", "--", "0", "-1", "2"], wrongly(name, no_number("-1", 63)))


# ---- sheets

def try_sheets(command):
    """Sheets as they were printed, with lines in another order, and as somebody may have written them."""
    source = seeded(command.part)
    for k in range(60):
        rota = small(source, 5) if k % 12 else side_by_side(source, 20)
        plans = [source.sample(range(rota.n), rota.n)] + ([rota.first, rota.best] if rota.first else [])
        heading, *entries = sheet_of(rota, source.choice(plans[-2:])).splitlines()
        if k % 3:
            source.shuffle(entries)
        lines = [heading, *entries]
        if k % 2:
            lines = ["", "IT SL\tC"] + [f"\t{line.split()[0]} 0{line.split()[1]} {source.choice(['', 'C'])}\r" for line in entries] + [" \t"]
        page = "\n".join(lines) + "\n" * (k % 5 > 0)
        ask_sheet(command, NAMES[k % 3], form(source, rota), page.encode(), k % 4 == 0, ("", "file", "sheet")[k % 7 % 3], rota)


def wrong_sheets():
    yield from (b"", b"\n\n", b"  ", b"\n \n\t", SHEET[1:], b"IT SL\n", b"IT SL C C\n", b"it sl c\n", b"ITSLC", b"0 0\n1 2\n2 1\n", MARK + SHEET,
                b"\0" + SHEET, b"\n\nIT SL D\n", b"C SL IT\n0 0\n")
    yield from (b"IT SL C", b"IT SL C\n", b"IT SL C\n0 0\n", b"IT SL C\n0 0\n2 1", b"IT SL C\n\n1 2\n2 1\n\n", b"IT SL C\n0 0\n1 2\n2 1\n1 2\n",
                b"IT SL C\n0 0\n0 0\n1 1\n")
    yield from (b"IT SL C\n3 0\n", b"IT SL C\n0 0\n1 2\n2 1\n3 3\n", b"IT SL C\n63 1\n", b"IT SL C\n64 1\n", b"IT SL C\n4294967296 1\n",
                b"IT SL C\n0003 1\n", b"IT SL C\n256 1\n")
    yield from (b"IT SL C\n0\n", b"IT SL C\n0 0 C C\n", b"IT SL C\n0 0 c\n", b"IT SL C\n0 0 0\n", b"IT SL C\n0 64\n", b"IT SL C\n0 4294967296\n",
                b"IT SL C\n0 18446744073709551616\n", b"IT SL C\nC\n")
    yield from (b"IT SL C\n-1 0\n", b"IT SL C\n0 -1\n", b"IT SL C\n0 +1\n", b"IT SL C\nx 1\n", b"IT SL C\n0 1x\n", b"IT SL C\n0 1\0\n",
                b"IT SL C\n0 \xb2\n", b"IT SL C\n0 0 # x\n", b"IT SL C\nIT SL C\n")
    yield from (SHEET + SHEET, SHEET + b"\n\n", SHEET[:-1], b"IT SL C\n0 0 C\n1 2 C\n2 1 C", b"IT SL C\n0 2\n1 1\n2 0\n",
                b"IT SL C\n0 0\n1 1\n2 63\n", b"\r\n" + SHEET.replace(b"\n", b"\r\n"))
    yield from (SHEET + b" " * (MOST_BYTES - len(SHEET)), SHEET + b"\n" * (MOST_BYTES - len(SHEET) + 1), SHEET + b"0" * 100000 + b" 1",
                SHEET + b"x" * 300000)


def try_wrong_sheets(command):
    data = tidy(T)
    for k, sheet in enumerate(wrong_sheets()):
        ask_sheet(command, NAMES[k % 3], data, sheet, k % 2 == 0, ("", "", "sheet")[k % 3])
    source = seeded("wrong sheets")
    for k in range(80):
        at = source.randrange(len(SHEET))
        sheet = SHEET[:at] + bytes([source.choice(b"012 \t\r\nC\nITSLx\0\xff")]) + SHEET[at + source.randrange(2):]
        ask_sheet(command, NAMES[k % 3], data, sheet, False, "sheet" if k % 4 == 0 else "")


def try_unread_sheets(command):
    file = command.write(tidy(T))
    for name in NAMES:
        command.expect([name, file, "--sheet", "missing"], ("", "rota: can't read missing: No such file or directory\n", 3))
        command.expect([name, file, "--sheet=."], ("", "rota: can't read .: Is a directory\n", 3))
        command.expect([name, "-", "--sheet", "-"], wrongly(name, "only one of FILE and SHEET can be standard input"))
        command.expect([name, "-", "--sheet=-", "--json"], wrongly(name, "only one of FILE and SHEET can be standard input"))


def try_all(command):
    try_slots(command)
    try_number_of_slots(command)
    try_no_slots(command)
    try_sheets(command)
    try_wrong_sheets(command)
    try_unread_sheets(command)
