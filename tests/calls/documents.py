"""The tables of README.md and docs/RULES.md, and the pages of man/rota.3."""
import re

import c_text
from places import Compared, Piece, Written

SAME = "the same"


def row(*cells):
    return "|" + "".join(f" {cell} |" if cell else " |" for cell in cells) + "\n"


def numbers(values, glue):
    return glue.join(map(str, values))


# ---- README.md

def refusals(manifest, call):
    """`1 2 3 4 9`; of a lister those of its first state, then what another one tests besides a group. A call on a file whose last tests are those that
    the one on tables has besides its group ends `as above`.
    """
    first, *others = call.rows
    above = manifest.calls.get(call.name[len("file_"):]) if call.name.startswith("file_") else None
    own = above.rows[0].own if above else ()
    if own and first.numbers[-len(own):] == own:
        return f"{numbers(first.numbers[:-len(own)], ' ')}, then as above"
    return ", or ".join([numbers(first.numbers, " "), *(f"{other.state} {numbers(other.own, ' ')}" for other in others)])


def readme(texts):
    """Each call of the table with its answer and its refusals. Several calls may share a row."""
    table = re.search(table_head("| Call | Answer | Refusals, in order |") + r"(?:\|.*\n)*", texts["README.md"], re.M)
    found = re.compile(r"^\| (`\w+`(?:, `\w+`)*) \| (.*) \| (.*) \|\n", re.M).finditer(texts["README.md"], *table.span()) if table else ()
    return [Piece("rota_" + name, f"`{name}`: {one[2]}; {one[3]}", *one.span()) for one in found for name in re.findall(r"\w+", one[1])]


def readme_wanted(manifest, _):
    return [(call.symbol, f"`{call.name}`: {call.gives}; {refusals(manifest, call)}") for call in manifest.calls.values()]


# ---- docs/RULES.md

def by_group(manifest):
    """The calls of the first group, then those of the next, then those of none."""
    groups = list(manifest.groups)
    return sorted(manifest.calls.values(), key=lambda call: min(map(groups.index, call.groups), default=len(groups)))


def rules_calls(manifest):
    """A long text that the row above has too is `the same`."""
    found, above = [], ""
    for call in by_group(manifest):
        writes = SAME if call.writes == above and len(above) > len(SAME) else call.writes
        found.append((call.symbol, row(f"`{call.symbol}`", manifest.gets(call), call.answers, writes)))
        above = call.writes
    return found


def rules_tests(manifest):
    return [(call.symbol, row(f"`{call.symbol}`" + (f", {tests.state}" if tests.state else ""), numbers(tests.numbers, ", ")))
            for call in by_group(manifest) for tests in call.rows]


# ---- man/rota.3

WIDTH = 69


def units(call):
    """The parameters of a group one by one, and what follows them together if a line has room for it."""
    own = [c_text.parameter(given) for given in call.takes if not given.group]
    last = ", ".join(own)
    behind = call.takes[-1].group == "" and len(f"    {last});") <= WIDTH
    return [c_text.parameter(given) for given in call.takes if given.group] + [last] if behind else [c_text.parameter(given) for given in call.takes]


def synopsis(manifest):
    found, part = [], None
    for call in manifest.calls.values():
        if part not in (None, call.part):
            found.append(("", ".PP\n"))
        part = call.part
        found.append((call.symbol, c_text.filled(c_text.head(call), units(call), WIDTH, 4)))
    return found


TAGGED = re.compile(r"^\.TP\n\.B (rota_\w+)\n((?:(?!\.TP\n|\.S[HS] |\.PP\n).*\n)*)", re.M)


def man_tests(texts):
    """The last sentence of each call's paragraph."""
    found = ((tag[1], re.search(r"^Tests (.*)\.\n\Z", tag[2], re.M), tag.start(2)) for tag in TAGGED.finditer(texts["man/rota.3"]))
    return [Piece(name, tests[1], at + tests.start(), at + tests.end()) for name, tests, at in found if tests]


def man_tests_wanted(manifest, _):
    def told(tests):
        return numbers(tests.numbers, " ") + (f" if {tests.state}" if tests.state else "")
    return [(call.symbol, ", ".join(map(told, call.rows))) for call in manifest.calls.values()]


def man_records(texts):
    """The first line of a record's paragraph: the fields in italics, and between them commas. A colon may follow."""
    found = ((tag[1], re.match(r"\.IR (.*?)(?: :)?\n", tag[2]), tag.start(2)) for tag in TAGGED.finditer(texts["man/rota.3"]))
    return [Piece(name, fields[1], at, at + fields.end()) for name, fields, at in found if fields]


def man_records_wanted(manifest, _):
    return [(record.symbol, ' ", " '.join(name for name, _, _ in record.fields)) for record in manifest.records.values()]


def table_head(head):
    """The pattern of a table's head and the rule below it."""
    return rf"^{re.escape(head)}\n\|[-|]+\n"


PLACES = [
    Compared("README.md", "table of calls", readme, readme_wanted),
    Written("docs/RULES.md", "table of calls", rules_calls, table_head("| call | gets | answers | writes on success |"), r"^(?!\|)"),
    Written("docs/RULES.md", "order of tests", rules_tests, table_head("| call | its tests, in order |"), r"^(?!\| `rota_)"),
    Written("man/rota.3", "synopsis", synopsis, r"^\.SH SYNOPSIS\n(?:.*\n)*?\.nf\n", r"^\.PP\nstatic inline"),
    Compared("man/rota.3", "tests", man_tests, man_tests_wanted),
    Compared("man/rota.3", "records", man_records, man_records_wanted),
]
