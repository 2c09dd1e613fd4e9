"""The calls in Rattle: their declarations and contracts in crate rota, their exports to C in crate rota_c, and the records of crate model."""
import re
import sys
from functools import partial

from manifest import ROOT
from places import Compared, Piece, squeezed

sys.path.append(str(ROOT / "tests/contracts"))
from edits import factors  # noqa: E402

CALLS = "crates/rota/src"
EXPORTS = "crates/rota_c/src"
RECORDS = "crates/model/src"
TYPES = {"size": "usize", "words": "[u64]", "bytes": "[u8]"}
# what stands before the name of a call, and of an export
BEGINS = {CALLS: "pub fn ", EXPORTS: '#[unsafe(no_mangle)]\npub extern "C" fn '}
WRONG = {"result ≡": "other ≡", ".new ≡": ".old ≡"}


def camel(name):
    return "".join(part.capitalize() for part in name.split("_"))


def snake(name):
    return re.sub(r"(?<=.)([A-Z])", r"_\1", name).lower()


def type_of(manifest, kind):
    return camel(kind) if kind in manifest.records else TYPES.get(kind, kind)


def module_at(text, place):
    """The module whose text holds the place."""
    begin = text.rindex("\f", 0, place) + 1
    return text[begin:text.index(".rt\n", begin)]


def public(path, text):
    """Each call: its name, parameters, answer and clauses."""
    return re.finditer(rf"^{re.escape(BEGINS[path])}(rota_\w+)\((.*?)\) -> (\w+)\n(.*?)^\{{\n", text, re.M | re.S)


def declared(path, texts):
    text, pieces = texts[path], []
    for found in public(path, text):
        given = squeezed(found[2]).rstrip(",")
        pieces.append(Piece(found[1], f"{module_at(text, found.start())}: ({given}) -> {found[3]}", found.start(), found.start(4)))
    return pieces


def declared_wanted(manifest, _):
    def given(parameter):
        lent = {"": "", "&": "&", "&mut": "&mut "}[parameter.lent]
        return f"{parameter.name}: {lent}{type_of(manifest, parameter.type)}"
    return [(call.symbol, f"{call.module}: ({', '.join(map(given, call.takes))}) -> {type_of(manifest, call.answer)}") for call in manifest.calls.values()]


def subject(factor):
    """What a factor of a clause tells: the answer, or how a lent thing is left."""
    found = re.match(r"\(?(?:(result) ≡ |(\w+)\.new ≡ )", factor.strip())
    return "not understood" if not found else found[2] or "the answer"


def clauses(path, texts):
    """Of what the clauses of each call tell, in order; a `requires` too."""
    pieces = []
    for found in public(path, texts[path]):
        told = []
        for clause in re.split(r"\n(?=    (?:ensures|requires) )", "\n" + found[4].rstrip())[1:]:
            said = re.fullmatch(r"ensures (?:\w+ )?\{ (.*) \}", squeezed(clause))
            told += map(subject, factors(said[1])) if said else [squeezed(clause)]
        pieces.append(Piece(found[1], ", ".join(told), found.start(4), found.end(4)))
    return pieces


def clauses_wanted(manifest, _):
    return [(call.symbol, ", ".join(["the answer", *(output.name for output in call.outputs)])) for call in manifest.calls.values()]


def clauses_changed(text, piece):
    """One more clause, each clause left out, and each that tells of another time."""
    yield text[:piece.start] + "    requires { ⊥ }\n" + text[piece.start:]
    for found in re.finditer(r"^    ensures .*\n(?:        .*\n)*", text[piece.start:piece.end], re.M):
        yield text[:piece.start + found.start()] + text[piece.start + found.end():]
    for found in re.finditer("|".join(map(re.escape, WRONG)), text[piece.start:piece.end]):
        yield text[:piece.start + found.start()] + WRONG[found[0]] + text[piece.start + found.end():]


def records(texts):
    found = re.finditer(r"^#\[repr\(C\)\]\n#\[derive\(Clone, Copy\)\]\npub struct (\w+) \{\n(.*?)^\}\n", texts[RECORDS], re.M | re.S)
    return [Piece("rota_" + snake(struct[1]), squeezed(struct[2].replace("pub ", "")).rstrip(","), *struct.span()) for struct in found]


def records_wanted(manifest, _):
    def told(name, kind, many):
        return f"{name}: [{kind}; {many}]" if many else f"{name}: {type_of(manifest, kind)}"
    return [(record.symbol, ", ".join(told(*field) for field in record.fields)) for record in manifest.records.values()]


PLACES = [
    *(Compared(path, "declarations", partial(declared, path), declared_wanted, ordered=False) for path in BEGINS),
    *(Compared(path, "clauses", partial(clauses, path), clauses_wanted, ordered=False, changed=clauses_changed) for path in BEGINS),
    Compared(RECORDS, "records", records, records_wanted, ordered=False),
]
