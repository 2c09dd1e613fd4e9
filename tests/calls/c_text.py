"""Calls and records as C writes them."""
TYPES = {"size": "size_t", "u8": "uint8_t", "u32": "uint32_t", "u64": "uint64_t", "bool": "bool"}
ELEMENTS = {"words": "uint64_t", "bytes": "uint8_t"}
SIZES = {"size": 8, "u8": 1, "u32": 4, "u64": 8, "bool": 1}


def type_of(name):
    return TYPES.get(name) or "rota_" + name


def parameter(given):
    """A parameter's declarations: of a buffer its pointer and its length."""
    const = "const " if given.lent == "&" else ""
    if given.type in ELEMENTS:
        return f"{const}{ELEMENTS[given.type]} *{given.name}, size_t {given.name}_len"
    return f"{const}{type_of(given.type)} {'*' if given.lent else ''}{given.name}"


def head(call):
    return f"{type_of(call.answer)} {call.symbol}("


def declaration(call):
    return head(call) + ", ".join(map(parameter, call.takes)) + ");"


def fields(record):
    return " ".join(f"{type_of(kind)} {name}[{many}];" if many else f"{type_of(kind)} {name};" for name, kind, many in record.fields)


def filled(begin, units, width, indent):
    """A declaration over several lines: the first unit on the first line, then as many on each as fit."""
    first, *others = [f"{unit}," for unit in units[:-1]] + [f"{units[-1]});"]
    lines = [begin + first]
    for unit in others:
        if len(f"{lines[-1]} {unit}") <= width:
            lines[-1] += f" {unit}"
        else:
            lines.append(" " * indent + unit)
    return "\n".join(lines) + "\n"


# ---- the layout of a record on x86-64 (System V): each field at the next multiple of its alignment, the size a multiple of the greatest

def layout(manifest, record):
    """(size, alignment, [(field, place, size)])."""
    at, most, places = 0, 1, []
    for name, kind, many in record.fields:
        size, alignment = (SIZES[kind], SIZES[kind]) if kind in SIZES else layout(manifest, manifest.records[kind])[:2]
        size *= many or 1
        at += -at % alignment
        places.append((name, at, size))
        at, most = at + size, max(most, alignment)
    return at + -at % most, most, places
