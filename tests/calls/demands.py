"""Crate demands: each call has a name there, a statement of what holds of every call (`EachFirst`), a place among those that ask nothing of their
callers, and its part of demand 1: the tests in order, what a refusal answers, and that it keeps what was lent. In names dashes and underscores are
taken for the same.
"""
import re
from functools import partial

from contracts import camel
from places import Compared, Piece

CALLS = "crates/demands/specs/Calls.antt"
DEMAND = "crates/demands/specs/Demand1.antt"
CONTRACTS = "crates/demands/proofs/Contracts.antt"
USES = re.compile(r"^use Rattle\.rota\.specs\.contracts\.(\w+)\.(rota_\w+) as ([\w-]+)\n", re.M)
# the tests of a group, by the name of the group
GROUPS = {"tables": "TABLES", "file_tests": "FILE"}
TEST = re.compile(rf"\b(?:({'|'.join(GROUPS)})|test(\d+))\b")


def snake(name):
    return name.replace("-", "_")


def names(texts):
    """{name in demands: call}."""
    return {snake(name): call for _, call, name in USES.findall(texts[CALLS])}


def used(texts):
    return [Piece(found[2], found[1], *found.span()) for found in USES.finditer(texts[CALLS])]


def used_wanted(manifest, _):
    return [(call.symbol, call.module) for call in manifest.calls.values()]


def each(texts):
    """`EachFirst` is of the call that is named `first`: what the call gets, its answer and what it leaves in what is lent to be written."""
    known = {"Each" + camel(name): call for name, call in names(texts).items()}
    found = re.finditer(r"^unfoldable pub (Each\w+) : \((.*) → Type 0\) → Type 0\n", texts[CALLS], re.M)
    return [Piece(known.get(one[1], one[1]), one[2], *one.span()) for one in found]


def each_wanted(manifest, _):
    def value(kind):
        return camel(kind) if kind in manifest.records else "List ℕ" if kind in ("words", "bytes") else "ℕ"
    return [(call.symbol, " → ".join(map(value, [*(given.type for given in call.takes), call.answer, *(output.type for output in call.outputs)])))
            for call in manifest.calls.values()]


def every_call(manifest, _):
    return [(call.symbol, "") for call in manifest.calls.values()]


def asked(path, begin, field, texts):
    """The fields of the record AskNothing, or of `ask_nothing`."""
    text = texts[path]
    record = re.search(rf"^{begin}\n((?: .*\n)*)", text, re.M)
    return [Piece("rota_" + snake(found[1]), "", *found.span()) for found in re.compile(field, re.M).finditer(text, *record.span(1))] if record else []


def fields(texts, ending):
    """The fields of Demand1 with this ending, by the call that they begin with: (call, match)."""
    known = names(texts)
    pattern = re.compile(rf"^  pub ([\w-]+)[-_]{ending} :(.*\n(?:      .*\n)*)", re.M)
    return [(known.get(snake(found[1]), f"{found[1]}-{ending}"), found) for found in pattern.finditer(texts[DEMAND])]


def tested(texts):
    """The group, and the tests that stand behind its own, in order; where a call has two rows, those of each."""
    pieces = []
    for call, found in fields(texts, "code"):
        tests = dict.fromkeys(GROUPS[test[1]] if test[1] else test[2] for test in TEST.finditer(found[2]))
        pieces.append(Piece(call, " ".join(tests), *found.span()))
    return pieces


def tested_wanted(manifest, _):
    """Of the lister the last state stands first: `cond started ..`."""
    def own(call):
        return [str(number) for row in reversed(call.rows) for number in row.own]
    return [(call.symbol, " ".join([*call.groups, *own(call)])) for call in manifest.calls.values()]


def another_test(text, piece):
    for found in TEST.finditer(text, piece.start, piece.end):
        yield f"{text[:found.start()]}test1{text[found.end():]}"


def told(ending, texts):
    return [Piece(call, "", *found.span()) for call, found in fields(texts, ending)]


def with_record(manifest, _):
    return [(call.symbol, "") for call in manifest.calls.values() if call.answer in manifest.records]


def with_output(manifest, _):
    return [(call.symbol, "") for call in manifest.calls.values() if call.outputs]


PLACES = [
    Compared(CALLS, "names of the calls", used, used_wanted, ordered=False),
    Compared(CALLS, "what holds of each call", each, each_wanted, ordered=False),
    Compared(CALLS, "AskNothing", partial(asked, CALLS, "pub record AskNothing .*", r"^  pub ([\w-]+) :.*\n"), every_call, ordered=False),
    Compared(CONTRACTS, "ask_nothing", partial(asked, CONTRACTS, "ask_nothing =", r"^ +([\w-]+) = .*\n"), every_call, ordered=False),
    Compared(DEMAND, "tests in order", tested, tested_wanted, ordered=False, changed=another_test),
    Compared(DEMAND, "refused answers", partial(told, "refused"), with_record, ordered=False),
    Compared(DEMAND, "what is kept", partial(told, "keeps"), with_output, ordered=False),
]
