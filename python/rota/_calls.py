"""The records and calls of ``rota.h``, for ctypes. Made from calls.txt by tests/calls/run --write."""
import ctypes
from typing import Any, Dict, List, Tuple


class PlanRecord(ctypes.Structure):
    _fields_ = [("slots", ctypes.c_uint8 * 64)]


class PlanAnswer(ctypes.Structure):
    _fields_ = [("code", ctypes.c_uint32), ("shortage", ctypes.c_uint32), ("items", ctypes.c_uint64), ("callouts", ctypes.c_uint32), ("plan", PlanRecord)]


class Lister(ctypes.Structure):
    _fields_ = [("started", ctypes.c_bool), ("plan", PlanRecord)]


class CountAnswer(ctypes.Structure):
    _fields_ = [("code", ctypes.c_uint32), ("count", ctypes.c_uint64)]


class NumberAnswer(ctypes.Structure):
    _fields_ = [("code", ctypes.c_uint32), ("number", ctypes.c_uint64)]


class GradeAnswer(ctypes.Structure):
    _fields_ = [("code", ctypes.c_uint32), ("grade", ctypes.c_uint32), ("shortage", ctypes.c_uint32), ("items", ctypes.c_uint64)]


class PriceAnswer(ctypes.Structure):
    _fields_ = [("code", ctypes.c_uint32), ("shortage", ctypes.c_uint32), ("items", ctypes.c_uint64), ("cents", ctypes.c_uint64)]


class ReadAnswer(ctypes.Structure):
    _fields_ = [("code", ctypes.c_uint32), ("n", ctypes.c_uint64)]


class WriteAnswer(ctypes.Structure):
    _fields_ = [("code", ctypes.c_uint32), ("bytes", ctypes.c_uint64)]


_WORDS: List[Any] = [ctypes.POINTER(ctypes.c_uint64), ctypes.c_size_t]
_BYTES: List[Any] = [ctypes.POINTER(ctypes.c_uint8), ctypes.c_size_t]
_TABLES: List[Any] = [ctypes.c_size_t, *_WORDS, *_WORDS]
_FILE: List[Any] = [*_BYTES]

# What each call answers and what it is given.
CALLS: Dict[str, Tuple[Any, List[Any]]] = {
    "rota_first_plan": (PlanAnswer, [*_TABLES]),
    "rota_next_plan": (PlanAnswer, [*_TABLES, PlanRecord]),
    "rota_list_plan": (PlanAnswer, [ctypes.POINTER(Lister), *_TABLES]),
    "rota_fewest_callouts": (PlanAnswer, [*_TABLES, ctypes.c_uint32]),
    "rota_cell_plan": (PlanAnswer, [*_TABLES, ctypes.c_size_t, ctypes.c_size_t]),
    "rota_plan_sheet": (ctypes.c_uint32, [*_TABLES, PlanRecord, *_BYTES]),
    "rota_usable_slots": (ctypes.c_uint32, [*_TABLES, *_WORDS]),
    "rota_count_plans": (CountAnswer, [*_TABLES, *_WORDS]),
    "rota_grade": (GradeAnswer, [*_TABLES, *_WORDS]),
    "rota_monthly_price": (PriceAnswer, [*_TABLES, ctypes.c_uint64, *_WORDS]),
    "rota_count_plans_untallied": (CountAnswer, [*_TABLES]),
    "rota_grade_untallied": (GradeAnswer, [*_TABLES]),
    "rota_monthly_price_untallied": (PriceAnswer, [*_TABLES, ctypes.c_uint64]),
    "rota_plan_at": (PlanAnswer, [*_TABLES, ctypes.c_uint64, *_WORDS]),
    "rota_plan_number": (NumberAnswer, [*_TABLES, PlanRecord, *_WORDS]),
    "rota_read_file": (ReadAnswer, [*_FILE, *_WORDS, *_WORDS]),
    "rota_write_file": (WriteAnswer, [*_TABLES, *_BYTES]),
    "rota_file_first_plan": (ctypes.c_uint32, [*_FILE, *_BYTES]),
    "rota_file_next_plan": (ctypes.c_uint32, [*_FILE, *_BYTES]),
    "rota_file_fewest_callouts": (ctypes.c_uint32, [*_FILE, *_BYTES, ctypes.c_uint32]),
}
