"""tests/conformance/src/interface.rs: the records, and the list of calls that goes to the macro. Its order is its own."""
import re

from contracts import camel, snake
from places import Compared, Piece, squeezed

INTERFACE = "tests/conformance/src/interface.rs"
TYPES = {"size": "usize", "bool": "u8"}
ELEMENTS = {"words": "u64", "bytes": "u8"}


def type_of(manifest, kind):
    """A plan and a lister of the tests are other things, so their records have other names. A flag is looked at as a byte."""
    if kind not in manifest.records:
        return TYPES.get(kind, kind)
    return camel(kind) if kind.endswith("_answer") else camel(kind) + "Record"


def records(texts):
    found = re.finditer(r"^#\[repr\(C\)\]\n#\[derive\([^)]*\)\]\npub struct (\w+?)(?:Record)? \{\n(.*?)^\}\n", texts[INTERFACE], re.M | re.S)
    return [Piece("rota_" + snake(struct[1]), squeezed(struct[2].replace("pub ", "")).rstrip(","), *struct.span()) for struct in found]


def records_wanted(manifest, _):
    def told(name, kind, many):
        return f"{name}: [{kind}; {many}]" if many else f"{name}: {type_of(manifest, kind)}"
    return [(record.symbol, ", ".join(told(*field) for field in record.fields)) for record in manifest.records.values()]


def calls(texts):
    found = re.finditer(r"^    (\w+) (rota_\w+)\(\n(.*?)\) -> (\w+);\n", texts[INTERFACE], re.M | re.S)
    return [Piece(call[2], f"{call[1]}: ({squeezed(call[3])}) -> {call[4]}", *call.span()) for call in found]


def calls_wanted(manifest, _):
    def given(parameter):
        pointer = {"": "", "&": "*const ", "&mut": "*mut "}[parameter.lent]
        if parameter.type in ELEMENTS:
            return f"{parameter.name}: {pointer}{ELEMENTS[parameter.type]}, {parameter.name}_len: usize"
        return f"{parameter.name}: {pointer}{type_of(manifest, parameter.type)}"
    return [(call.symbol, f"{call.name}: ({', '.join(map(given, call.takes))}) -> {type_of(manifest, call.answer)}")
            for call in manifest.calls.values()]


PLACES = [
    Compared(INTERFACE, "records", records, records_wanted, ordered=False),
    Compared(INTERFACE, "list of calls", calls, calls_wanted, ordered=False),
]
