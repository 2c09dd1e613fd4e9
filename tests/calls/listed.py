"""Plain lists of the calls, in documents and tests that are written by hand."""
import re

from places import Compared, Named, Piece

CLAIMS = "docs/CLAIMS.md"
STACK = "bench/stack/stack.c"


def wrong_answers(texts):
    """The rows of CLAIMS' table of wrong answers, each with two or more."""
    text = texts[CLAIMS]
    table = re.search(r"^\| Call \| Wrong answers \|\n(?:\|.*\n)*", text, re.M)
    rows = re.compile(r"^\| `(\w+)` \| `\w+`, `\w+`.*\n", re.M).finditer(text, *table.span()) if table else ()
    return [Piece("rota_" + row[1], "", *row.span()) for row in rows]


def one_left(text, piece):
    """The row with its first wrong answer alone."""
    yield text[:piece.start] + re.sub(r"(\| `\w+` \| `\w+`).*", r"\1 |", text[piece.start:piece.end]) + text[piece.end:]


def every_call(manifest, _):
    return [(call.symbol, "") for call in manifest.calls.values()]


def counted(texts):
    """The number of calls, wherever CLAIMS names it."""
    found = list(re.finditer(r"the (\d+) calls\b", texts[CLAIMS]))
    return [Piece("the number of calls", " ".join(sorted({one[1] for one in found})), found[0].start(), found[-1].end())] if found else []


def counted_wanted(manifest, _):
    return [("the number of calls", str(len(manifest.calls)))]


def another_number(text, piece):
    for found in re.finditer(r"the (\d+) calls\b", text):
        yield f"{text[:found.start(1)]}{int(found[1]) + 1}{text[found.end(1):]}"


def callers(texts):
    return [Piece(found[2], found[1], *found.span()) for found in re.finditer(r"^CALLER\((\w+), (rota_\w+)\(.*\n", texts[STACK], re.M)]


def measured(texts):
    return [Piece("rota_" + found[1], found[2], *found.span()) for found in re.finditer(r'^    \{"(\w+)", (\w+), 0, NULL\},?\n', texts[STACK], re.M)]


def measured_wanted(manifest, _):
    return [(call.symbol, call.name) for call in manifest.calls.values()]


PLACES = [
    Compared(CLAIMS, "wrong answers, two or more of each call", wrong_answers, every_call, changed=one_left),
    Compared(CLAIMS, "text", counted, counted_wanted, changed=another_number),
    Compared(STACK, "callers", callers, measured_wanted),
    Compared(STACK, "rows", measured, measured_wanted),
    Named("tests/header/header.c", "every call on T"),
    Named("tests/header/lent.c", "every call at the edge of what the header allows"),
]
