"""python/rota/_calls.py: the records and the table of calls, for ctypes."""
from contracts import camel
from places import Written

TYPES = {"size": "ctypes.c_size_t", "u8": "ctypes.c_uint8", "u32": "ctypes.c_uint32", "u64": "ctypes.c_uint64", "bool": "ctypes.c_bool"}
BUFFERS = {"words": "*_WORDS", "bytes": "*_BYTES"}
HEAD = '''\
"""The records and calls of ``rota.h``, for ctypes. Made from calls.txt by tests/calls/run --write."""
import ctypes
from typing import Any, Dict, List, Tuple
'''
LENT = '''

_WORDS: List[Any] = [ctypes.POINTER(ctypes.c_uint64), ctypes.c_size_t]
_BYTES: List[Any] = [ctypes.POINTER(ctypes.c_uint8), ctypes.c_size_t]
'''


def type_of(kind):
    """The module's own plan is a tuple of slots, so the record has another name."""
    return TYPES.get(kind) or ("PlanRecord" if kind == "plan" else camel(kind))


def argument(parameter):
    if parameter.type in BUFFERS:
        return BUFFERS[parameter.type]
    return f"ctypes.POINTER({type_of(parameter.type)})" if parameter.lent else type_of(parameter.type)


def record(given):
    fields = ", ".join(f'("{name}", {type_of(kind)}{f" * {many}" if many else ""})' for name, kind, many in given.fields)
    return f"\n\nclass {type_of(given.name)}(ctypes.Structure):\n    _fields_ = [{fields}]\n"


def arguments(call):
    """A group stands once, by its name."""
    found = []
    for given in call.takes:
        if not given.group:
            found.append(argument(given))
        elif f"*_{given.group}" not in found:
            found.append(f"*_{given.group}")
    return ", ".join(found)


def declarations(manifest):
    found = [("", HEAD)] + [(given.symbol, record(given)) for given in manifest.records.values()] + [("", LENT)]
    for group in manifest.groups.values():
        found.append((group.name, f"_{group.name}: List[Any] = [{', '.join(map(argument, group.takes))}]\n"))
    found.append(("", "\n# What each call answers and what it is given.\nCALLS: Dict[str, Tuple[Any, List[Any]]] = {\n"))
    found += [(call.symbol, f'    "{call.symbol}": ({type_of(call.answer)}, [{arguments(call)}]),\n') for call in manifest.calls.values()]
    return found + [("", "}\n")]


PLACES = [Written("python/rota/_calls.py", "declarations", declarations)]
