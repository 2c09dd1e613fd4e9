"""include/rota.h: its declarations, structs and groups, and what its comments say each call tests."""
import re

import c_text
from places import Compared, Piece, squeezed

HEADER = "include/rota.h"
DECLARED = re.compile(r"^\w+ (rota_\w+)\([^)]*\);", re.M)
# a refusal or a group, and a remark in parentheses
TESTED = r"[A-Z_]+(?:\s+\((?:[^()]|\([^()]*\))*\))?"
TESTS = re.compile(rf"(?:(\w+)\s+it\s+)?[Tt]ests\s+({TESTED}(?:,\s+{TESTED})*)(?=[.;])")


def codes(text):
    """{number: name} of enum rota_code."""
    body = re.search(r"^enum rota_code \{(.*?)^\};", text, re.M | re.S)[1]
    return {int(number): name for name, number in re.findall(r"^    (ROTA_\w+) = (\d+)", body, re.M)}


def declarations(texts):
    return [Piece(found[1], squeezed(found[0]), *found.span()) for found in DECLARED.finditer(texts[HEADER])]


def declarations_wanted(manifest, _):
    return [(call.symbol, c_text.declaration(call)) for call in manifest.calls.values()]


def structs(texts):
    found = re.finditer(r"^typedef struct \{(.*?)^\} (rota_\w+);", texts[HEADER], re.M | re.S)
    return [Piece(struct[2], squeezed(re.sub(r"/\*.*?\*/", "", struct[1])), *struct.span()) for struct in found]


def structs_wanted(manifest, _):
    return [(record.symbol, c_text.fields(record)) for record in manifest.records.values()]


def groups(texts):
    """The lines of the first comment that begin with a group."""
    return [Piece(found[1], found[2], *found.span()) for found in re.finditer(r"^ \*   ([A-Z]+) +(ROTA_.*)\n", texts[HEADER], re.M)]


def groups_wanted(manifest, texts):
    names = codes(texts[HEADER])
    return [(group.name, ", ".join(names.get(number, str(number)) for number in group.tests)) for group in manifest.groups.values()]


def tests(texts):
    """What the comment above each declaration says, with its state where it names one."""
    text, pieces = re.sub(r"(?<=\n) \*(?!/)", "  ", texts[HEADER]), []
    for found in DECLARED.finditer(text):
        begin = text.rfind("/*", 0, found.start())
        told = list(TESTS.finditer(text, begin, found.start()))
        if told and text[begin:found.start()].count("*/") == 1:
            value = "; ".join(", ".join(re.findall(r"(?:^|,\s+)([A-Z_]+)", one[2])) + (f" if {one[1].lower()}" if one[1] else "") for one in told)
            pieces.append(Piece(found[1], value, told[0].start(), told[-1].end()))
    return pieces


def tests_wanted(manifest, texts):
    names = codes(texts[HEADER])

    def told(row):
        parts = (names.get(part, str(part)) if isinstance(part, int) else part.name for part in row.parts)
        return ", ".join(parts) + (f" if {row.state}" if row.state else "")
    return [(call.symbol, "; ".join(map(told, call.rows))) for call in manifest.calls.values()]


PLACES = [
    Compared(HEADER, "declarations", declarations, declarations_wanted),
    Compared(HEADER, "structs", structs, structs_wanted),
    Compared(HEADER, "groups of tests", groups, groups_wanted),
    Compared(HEADER, "tests in the comments", tests, tests_wanted),
]
