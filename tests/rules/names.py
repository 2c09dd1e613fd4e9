"""Links to the rules, names in the table of words, and what the table of calls says of each call's answer and of what it writes."""
import functools
import glob
import os
import re

from document import anchor, expect
from library import FILL
from rotas import rota_t

ANSWERS = {"plan": "plan", "item set": "items", "shortage": "shortage", "fewest number": "callouts", "count": "count", "grade": "grade", "price": "cents",
           "plan number": "number", "number of bytes": "bytes", "n": "n"}

GETS = {"given": "a plan", "lister": "a lister", "cap": "the cap r", "item": "an item", "slot": "a slot", "page": "a page", "usable": "a table",
        "tally": "a tally", "vehicles": "vehicles", "k": "the plan number k", "file": "a buffer", "opens": "two tables", "callouts": "two tables",
        "plan": "a plan buffer"}


def read(path):
    with open(path, encoding="utf-8") as text:
        return text.read()


def links(doc, root):
    """Each link to a rule, here and in the other documents, leads to a heading; each rule is linked from CLAIMS.md."""
    rules = [anchor(heading) for heading in doc.headings(3)]
    known = rules + [anchor(heading) for heading in doc.headings(2)]
    pages = {path: read(path) for path in [os.path.join(root, "README.md")] + sorted(glob.glob(os.path.join(root, "docs", "*.md")))}
    followed = 0
    for path, text in pages.items():
        here = "#" if path.endswith("RULES.md") else "RULES.md#"
        text = "\n".join(doc.lines) if here == "#" else text
        for target in re.findall(r"\]\((?:docs/)?" + re.escape(here) + r"([^)]*)\)", text):
            expect(target in known, os.path.basename(path), "links to", target)
            followed += 1
    claimed = set(re.findall(r"\]\(RULES\.md#([^)]*)\)", pages[os.path.join(root, "docs", "CLAIMS.md")]))
    missing = [rule for rule in rules if rule not in claimed]
    expect(not missing, "CLAIMS.md does not link:", ", ".join(missing))
    return len(rules), followed


@functools.lru_cache(maxsize=None)
def known(root):
    """The definitions of model, and the names in the code and in the header."""
    def texts(*parts):
        return "\n".join(read(path) for path in sorted(glob.glob(os.path.join(root, *parts))))
    specs = texts("crates", "model", "specs", "*.antt")
    code = texts("crates", "*", "src", "*.rt") + texts("include", "rota.h")
    return set(re.findall(r"^ *(?:unfoldable |abbrev )?pub (?:record )?([\w-]+)", specs, re.M)), set(re.findall(r"\w+", code))


def words(doc, root):
    """The names in the table of words are definitions of model, and names of the code or of the header."""
    definitions, code = known(root)
    rows, names = doc.table("Words", "here", "in the field", "definition", "in code"), 0
    for here, _, definition, used in rows:
        for column, there in ((definition, definitions), (used, code)):
            for name in re.findall("`([^`]*)`", column):
                expect(name in there, here, "- no such name:", name)
                names += 1
    return len(rows), names


# ---- the table of calls

def on_t(library, t, name, file):
    """Each call on T, with more room than it needs."""
    given = bytes([0, 1, 2]) + bytes(61)
    return {
        "rota_first_plan": lambda: library.first_plan(t),
        "rota_next_plan": lambda: library.next_plan(t, given),
        "rota_list_plan": lambda: library.list_plan(t, bytes(65)),
        "rota_fewest_callouts": lambda: library.fewest_callouts(t, 1),
        "rota_cell_plan": lambda: library.cell_plan(t, 1, 2),
        "rota_plan_sheet": lambda: library.plan_sheet(t, given, 150),
        "rota_usable_slots": lambda: library.usable_slots(t, 9),
        "rota_count_plans": lambda: library.count_plans(t, 19),
        "rota_grade": lambda: library.grade(t, 19),
        "rota_monthly_price": lambda: library.monthly_price(t, 100, 19),
        "rota_count_plans_untallied": lambda: library.count_plans_untallied(t),
        "rota_grade_untallied": lambda: library.grade_untallied(t),
        "rota_monthly_price_untallied": lambda: library.monthly_price_untallied(t, 100),
        "rota_plan_at": lambda: library.plan_at(t, 1, 19),
        "rota_plan_number": lambda: library.plan_number(t, given, 19),
        "rota_write_file": lambda: library.write_file(t, 1600),
        "rota_read_file": lambda: library.read_file(file, 9, 9),
        "rota_file_first_plan": lambda: library.file_first_plan(file, FILL * 80),
        "rota_file_next_plan": lambda: library.file_next_plan(file, given + FILL * 16),
        "rota_file_fewest_callouts": lambda: library.file_fewest_callouts(file, FILL * 80, 1),
    }[name]()


def extent(answer):
    """For each thing lent and changed, how many of its first bytes lie before the part that is as it was."""
    found = {}
    for name, before, after in answer.lent:
        if before != after:
            found[name] = 1 + max(at for at in range(len(before)) if before[at] != after[at])
    return found


def prototypes(root):
    """What each call gets by the header, besides n and the tables or bytes that it only reads; in the document's words."""
    found = {}
    for name, arguments in re.findall(r"^\w+ (rota_\w+)\(([^)]*)\);", read(os.path.join(root, "include", "rota.h")), re.M):
        writable = [part.split()[-1].strip("*") for part in arguments.split(",") if "const" not in part]
        said = [GETS[argument] for argument in writable if argument != "n" and not argument.endswith("_len")]
        found[name] = ", ".join(dict.fromkeys(said))
    return found


def calls(doc, library, file, root):
    """By the table of calls: what each gets, the numbers in its answer, and how much it writes."""
    rows, t, says = doc.table("Calls", "call", "gets", "answers", "writes on success"), rota_t(doc), None
    expect({name.strip("`"): gets for name, gets, _, _ in rows} == prototypes(root), "the header's calls get", prototypes(root))
    n = t[0]
    writes = {"": {}, "the lister": {"lister": 65}, "(n + 1) × 32 bytes": {"page": (n + 1) * 32}, "n words": {"usable": 8 * n},
              "2 to the power n words of the tally": {"tally": 8 << n}, "these bytes": {"file": 512},
              "n words of each": {"open words": 8 * n, "callout words": 8 * n}, "64 bytes": {"plan": 64}}
    for name, _, answers, written in rows:
        says = says if written == "the same" else written
        answer = on_t(library, t, name.strip("`"), file)
        expect(answer.code == 0 and says in writes, name, written)
        has = ["plan"] * (answer.plan is not None) + list(answer.numbers)
        wanted = [ANSWERS[part] for part in answers.split(", ")] if answers else []
        expect(set(wanted) <= set(has) and all(answer.numbers[rest] == 0 for rest in set(has) - set(wanted) - {"plan"}), name, "answers", has)
        expect(all(length <= writes[says][part] for part, length in extent(answer).items()), name, "writes", extent(answer))
        expect(set(extent(answer)) == set(writes[says]), name, "writes", extent(answer))
    return len(rows), 3 * len(rows)
