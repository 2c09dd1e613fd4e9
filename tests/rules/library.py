"""The calls of the library, by ctypes over a shared object, with the records of the Python module. What a call is lent lies between guards.

Each call is given plain values and gives an Answer: the number, the other numbers by name, the plan's bytes or None, what was lent, by name
with its bytes before and after, and the names of what is not as it was. Calls are pure, so each is made once for the same values.
"""
import collections
import ctypes
import functools
import struct
import sys
from pathlib import Path

sys.path.append(str(Path(__file__).resolve().parents[2] / "python"))
from rota._library import CountAnswer, GradeAnswer, NumberAnswer, PlanAnswer, PlanRecord, PriceAnswer, ReadAnswer, WriteAnswer  # noqa: E402

Answer = collections.namedtuple("Answer", "code numbers plan lent changed")
GUARD = b"\x5a" * 64
FILL = b"\xa5"


class Lent:
    """Bytes in a place of their own, a guard on each side."""

    def __init__(self, data):
        self.before = bytes(data)
        self.memory = bytearray(GUARD + self.before + GUARD)
        self.view = (ctypes.c_uint8 * len(self.memory)).from_buffer(self.memory)
        self.pointer = ctypes.c_void_p(ctypes.addressof(self.view) + len(GUARD))

    def after(self):
        """The same object where nothing is changed, so that an answer that is kept has a long tally once."""
        assert self.memory.startswith(GUARD) and self.memory.endswith(GUARD), "written outside of what was lent"
        after = bytes(self.memory[len(GUARD):-len(GUARD)])
        return self.before if after == self.before else after


@functools.lru_cache(maxsize=None)
def filled(places):
    """A tally before the call."""
    return FILL * 8 * places


def words_of(data):
    return struct.unpack("<%dQ" % (len(data) // 8), data)


def bytes_of(words):
    return struct.pack("<%dQ" % len(words), *words)


def answer_of(found, lent):
    kept = tuple((name, buffer.before, buffer.after()) for name, buffer in lent)
    changed = [name for name, before, after in kept if before != after]
    if isinstance(found, int):
        return Answer(found, {}, None, kept, changed)
    names = [name for name, _ in found._fields_]
    numbers = {name: getattr(found, name) for name in names if name not in ("code", "plan")}
    return Answer(found.code, numbers, bytes(found.plan.slots) if "plan" in names else None, kept, changed)


class Library:
    def __init__(self, path):
        self.shared = ctypes.CDLL(path)
        self.made = 0

    def call(self, name, result, arguments, lent):
        """One call; a buffer among the arguments stands for its pointer and its length in elements of the given size."""
        function = getattr(self.shared, name)
        function.restype = result
        plain = []
        for argument in arguments:
            if isinstance(argument, tuple):
                buffer, size = argument
                plain += [buffer.pointer, ctypes.c_size_t(len(buffer.before) // size)]
            else:
                plain.append(argument)
        self.made += 1
        return answer_of(function(*plain), lent)

    def on_tables(self, name, result, rota, arguments=(), lent=(), first=()):
        n, opens, callouts = rota
        tables = [Lent(bytes_of(opens)), Lent(bytes_of(callouts))]
        every = list(first) + [ctypes.c_size_t(n), (tables[0], 8), (tables[1], 8)] + list(arguments)
        return self.call(name, result, every, [("opens", tables[0]), ("callouts", tables[1])] + list(lent))

    @functools.lru_cache(maxsize=None)
    def first_plan(self, rota):
        return self.on_tables("rota_first_plan", PlanAnswer, rota)

    @functools.lru_cache(maxsize=None)
    def next_plan(self, rota, given):
        return self.on_tables("rota_next_plan", PlanAnswer, rota, [PlanRecord.from_buffer_copy(given)])

    @functools.lru_cache(maxsize=None)
    def list_plan(self, rota, lister):
        """The lister is a flag's byte and 64 bytes."""
        lent = Lent(lister)
        return self.on_tables("rota_list_plan", PlanAnswer, rota, lent=[("lister", lent)], first=[lent.pointer])

    @functools.lru_cache(maxsize=None)
    def fewest_callouts(self, rota, cap):
        return self.on_tables("rota_fewest_callouts", PlanAnswer, rota, [ctypes.c_uint32(cap)])

    @functools.lru_cache(maxsize=None)
    def cell_plan(self, rota, item, slot):
        return self.on_tables("rota_cell_plan", PlanAnswer, rota, [ctypes.c_size_t(item), ctypes.c_size_t(slot)])

    @functools.lru_cache(maxsize=None)
    def plan_sheet(self, rota, given, places):
        page = Lent(FILL * places)
        return self.on_tables("rota_plan_sheet", ctypes.c_uint32, rota, [PlanRecord.from_buffer_copy(given), (page, 1)], [("page", page)])

    @functools.lru_cache(maxsize=None)
    def usable_slots(self, rota, places):
        usable = Lent(FILL * 8 * places)
        return self.on_tables("rota_usable_slots", ctypes.c_uint32, rota, [(usable, 8)], [("usable", usable)])

    @functools.lru_cache(maxsize=None)
    def count_plans(self, rota, places):
        tally = Lent(filled(places))
        return self.on_tables("rota_count_plans", CountAnswer, rota, [(tally, 8)], [("tally", tally)])

    @functools.lru_cache(maxsize=None)
    def grade(self, rota, places):
        tally = Lent(filled(places))
        return self.on_tables("rota_grade", GradeAnswer, rota, [(tally, 8)], [("tally", tally)])

    @functools.lru_cache(maxsize=None)
    def monthly_price(self, rota, vehicles, places):
        tally = Lent(filled(places))
        return self.on_tables("rota_monthly_price", PriceAnswer, rota, [ctypes.c_uint64(vehicles), (tally, 8)], [("tally", tally)])

    @functools.lru_cache(maxsize=None)
    def count_plans_untallied(self, rota):
        return self.on_tables("rota_count_plans_untallied", CountAnswer, rota)

    @functools.lru_cache(maxsize=None)
    def grade_untallied(self, rota):
        return self.on_tables("rota_grade_untallied", GradeAnswer, rota)

    @functools.lru_cache(maxsize=None)
    def monthly_price_untallied(self, rota, vehicles):
        return self.on_tables("rota_monthly_price_untallied", PriceAnswer, rota, [ctypes.c_uint64(vehicles)])

    @functools.lru_cache(maxsize=None)
    def plan_at(self, rota, k, places):
        tally = Lent(filled(places))
        return self.on_tables("rota_plan_at", PlanAnswer, rota, [ctypes.c_uint64(k), (tally, 8)], [("tally", tally)])

    @functools.lru_cache(maxsize=None)
    def plan_number(self, rota, given, places):
        tally = Lent(filled(places))
        return self.on_tables("rota_plan_number", NumberAnswer, rota, [PlanRecord.from_buffer_copy(given), (tally, 8)], [("tally", tally)])

    @functools.lru_cache(maxsize=None)
    def write_file(self, rota, places):
        file = Lent(FILL * places)
        return self.on_tables("rota_write_file", WriteAnswer, rota, [(file, 1)], [("file", file)])

    @functools.lru_cache(maxsize=None)
    def read_file(self, data, open_places, callout_places):
        file, opens, callouts = Lent(data), Lent(FILL * 8 * open_places), Lent(FILL * 8 * callout_places)
        lent = [("file", file), ("open words", opens), ("callout words", callouts)]
        return self.call("rota_read_file", ReadAnswer, [(file, 1), (opens, 8), (callouts, 8)], lent)

    @functools.lru_cache(maxsize=None)
    def on_file(self, name, data, buffer, cap=None):
        file, plan = Lent(data), Lent(buffer)
        arguments = [(file, 1), (plan, 1)] + ([] if cap is None else [ctypes.c_uint32(cap)])
        return self.call(name, ctypes.c_uint32, arguments, [("file", file), ("plan", plan)])

    def file_first_plan(self, data, buffer):
        return self.on_file("rota_file_first_plan", data, buffer)

    def file_next_plan(self, data, buffer):
        return self.on_file("rota_file_next_plan", data, buffer)

    def file_fewest_callouts(self, data, buffer, cap):
        return self.on_file("rota_file_fewest_callouts", data, buffer, cap)


def left(answer, name):
    """What the lent thing of this name holds afterwards."""
    return next(after for known, _, after in answer.lent if known == name)
