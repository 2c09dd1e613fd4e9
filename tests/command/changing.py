"""What a change is to say, and the bytes that it is to leave."""
import json

import cases
from reading import Unread, cell_of, rota_in, rows_of
from reference import Refused, rota_of
from wording import refusal, refusal_record, unless_refused

CELLS = {"open": "o", "close": ".", "callout": "C"}
WORDS = {".": "closed", "o": "open", "C": "a callout"}
NAMES = {".": "closed", "o": "open", "C": "callout"}


def changed_rota(rota, i, j, cell):
    opens, callouts = list(rota.opens), list(rota.callouts)
    opens[i] = opens[i] & ~(1 << j) | (cell != ".") << j
    callouts[i] = callouts[i] & ~(1 << j) | (cell == "C") << j
    return rota_of(opens, callouts)


def changed_bytes(data, rota, i, j, cell):
    """A text has one byte changed, a file is made anew."""
    if data[:4] == b"ROTA":
        return cases.rota(rota.opens, rota.callouts)
    at = rows_of(data)[i][0] + j
    return data[:at] + cell.encode() + data[at + 1:]


def sides(rota, cell):
    """The cell, the plans and the grade on one side of a change: as words and as a record."""
    (count, no_count), (grade, no_grade) = unless_refused(rota.count_plans), unless_refused(rota.grade)
    words = [WORDS[cell], refusal(no_count) if no_count else str(count), refusal(no_grade) if no_grade else str(grade)]
    return words, {"cell": NAMES[cell], "count": None if no_count else str(count), "grade": grade}


def change(name, data, verb, i, j, as_json=False):
    """((standard output, standard error, status), the file's bytes afterwards)."""
    try:
        rota = rota_in(data)
    except Refused as no:
        return (json.dumps(refusal_record(no)) + "\n" if as_json else "", f"rota: {name}: {refusal(no)}\n", 1), data
    except Unread as no:
        return ("", f"rota: {name}: {no}\n", 3), data
    cell = CELLS[verb]
    after = changed_rota(rota, i, j, cell)
    before_words, before = sides(rota, cell_of(rota.opens[i], rota.callouts[i], j))
    after_words, record = sides(after, cell)
    lines = [f"{label}: {a}, {'as before' if a == b else f'now {b}'}\n"
             for label, a, b in zip((f"item {i}, slot {j}", "plans", "grade"), before_words, after_words)]
    out = json.dumps({"n": rota.n, "item": i, "slot": j, "before": before, "after": record}) + "\n" if as_json else "".join(lines)
    return (out, "", 0), changed_bytes(data, after, i, j, cell)
