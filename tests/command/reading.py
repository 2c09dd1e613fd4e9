"""What the command is given, read as it must read it: texts, rota files and sheets, or the exact error."""
import re

import cases
from reference import Refused, rota_of

MOST_BYTES = 1048576
TOO_LONG = "the text has more than 1,048,576 bytes"
MARK = b"\xef\xbb\xbf"  # UTF-8's byte order mark


class Unread(Exception):
    """No text or no sheet; says why, as a message does after the name."""


def rota_in(data):
    """The rota in these bytes."""
    if data[:4] != b"ROTA":
        return rota_of(*tables(rows_of(data)))
    code, opens, callouts = cases.read(data)
    if code:
        raise Refused(code)
    return rota_of(opens, callouts)


def lines_of(data):
    """The lines, without their line feeds; a last one may lack it."""
    if len(data) > MOST_BYTES:
        raise Unread(TOO_LONG)
    lines = data.split(b"\n")
    return lines if lines[-1] else lines[:-1]


# ---- texts

def tables(rows):
    """The open and the callout words of lines of cells."""
    opens = [sum(1 << j for j, cell in enumerate(cells) if cell in b"oC") for _, cells in rows]
    return opens, [sum(1 << j for j, cell in enumerate(cells) if cell in b"C") for _, cells in rows]


def rows_of(data):
    """Each item's cells, and at which byte of the text they begin."""
    begin = len(MARK) if data.startswith(MARK) else 0
    lines = lines_of(data)
    rows, at = [], begin
    for number, line in enumerate(lines, 1):
        line = line[begin:] if number == 1 else line
        if not line:
            at += 1
            continue
        blanks, cells = cells_of(line, number, len(rows), len(rows[0][1]) if rows else None)
        if cells:
            rows.append((at + blanks, cells))
        at += len(line) + 1
    if not rows:
        raise Refused(1, more="; the text has no line of cells")
    n = len(rows[0][1])
    if len(rows) < n:
        raise Unread(f"line {len(lines) + 1}, column 1: there are fewer lines of cells than the first one asks for: {len(rows)}, not {n}")
    return rows


def cells_of(line, number, before, n):
    """How many blanks a line begins with, and its cells; `before` lines of cells, of n each, have been read (n None: none yet)."""
    found = re.match(rb"([ \t\r]*)([^ \t\r#]*)([ \t\r]*)(.?)", line, re.DOTALL)
    blanks, cells = len(found[1]), found[2]

    def wrong(k, words):
        raise Unread(f"line {number}, column {blanks + k + 1}: {words}")

    for k, byte in enumerate(cells):
        if byte not in b".oC":
            name = f"'{chr(byte)}'" if 0x21 <= byte <= 0x7e else f"byte {byte:02x}"
            wrong(k, f"{name} is no cell; a cell is . (closed), o (open) or C (open and a callout)")
        if before == n:
            wrong(k, f"there are more lines of cells than the {n} that the first one asks for")
        if k == n:
            wrong(k, f"there are more cells than the {n} of the first line")
        if k == 64:
            raise Refused(1, more=f"; line {number} has more than 64 cells")
    if cells and n is not None and len(cells) < n:
        wrong(len(cells), f"there are fewer cells than in the first line: {len(cells)}, not {n}")
    if found[4] not in (b"", b"#"):
        wrong(found.start(4) - blanks, "nothing but a comment may follow the cells")
    return blanks, cells


def text_of(opens, callouts):
    """The lines that `rota text` writes."""
    return "".join("".join(cell_of(*words, j) for j in range(len(opens))) + "\n" for words in zip(opens, callouts))


def cell_of(opens, callouts, j):
    return "C" if callouts >> j & 1 else "o" if opens >> j & 1 else "."


# ---- sheets

def plan_in(data, n):
    """The slots in a sheet of n items."""
    lines, heading, slots = lines_of(data), False, {}
    for number, line in enumerate(lines, 1):
        words = [word for word in re.split(rb"[ \t\r]", line) if word]
        if words and not heading:
            heading = words == [b"IT", b"SL", b"C"]
            if not heading:
                raise Unread(f"line {number}: this is no heading IT SL C")
        elif words:
            item, slot = entry_of(words, number)
            if item >= n:
                raise Unread(f"line {number}: the rota has no item {item}")
            if item in slots:
                raise Unread(f"line {number}: item {item} stands twice")
            slots[item] = slot
    if not heading:
        raise Unread(f"line {len(lines) + 1}: this is no heading IT SL C")
    for item in range(n):
        if item not in slots:
            raise Unread(f"line {len(lines) + 1}: item {item} is missing")
    return [slots[item] for item in range(n)]


def entry_of(words, number):
    digits = all(re.fullmatch(rb"[0-9]+", word) for word in words[:2])
    numbers = [int(word.lstrip(b"0") or b"0") for word in words[:2]] if digits else []
    if len(numbers) < 2 or words[2:] not in ([], [b"C"]) or numbers[1] > 63:
        raise Unread(f"line {number}: an item, its slot and perhaps a C are wanted")
    return numbers
