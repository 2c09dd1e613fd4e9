"""The module's numbers, texts, records and calls are those of the header."""
import ctypes
import unittest

import declared
from rota import Code, _library, _refused, _text

RECORDS = {
    "rota_plan": _library.PlanRecord,
    "rota_plan_answer": _library.PlanAnswer,
    "rota_lister": _library.Lister,
    "rota_count_answer": _library.CountAnswer,
    "rota_number_answer": _library.NumberAnswer,
    "rota_grade_answer": _library.GradeAnswer,
    "rota_price_answer": _library.PriceAnswer,
    "rota_read_answer": _library.ReadAnswer,
    "rota_write_answer": _library.WriteAnswer,
}
TYPES = {
    "size_t": ctypes.c_size_t,
    "uint32_t": ctypes.c_uint32,
    "uint64_t": ctypes.c_uint64,
    "uint8_t *": ctypes.POINTER(ctypes.c_uint8),
    "uint64_t *": ctypes.POINTER(ctypes.c_uint64),
    "rota_lister *": ctypes.POINTER(_library.Lister),
    **RECORDS,
}


class Declarations(unittest.TestCase):
    def test_codes(self):
        self.assertEqual({code.name: code.value for code in Code}, declared.codes())

    def test_texts(self):
        known, other = declared.texts()
        self.assertEqual([_refused.code_text(code) for code in range(len(known))], known)
        self.assertEqual(len(known), len(Code))
        for code in len(known), 2 ** 32 - 1:
            self.assertEqual(_refused.code_text(code), other)

    def test_sizes(self):
        sizes = declared.sizes()
        for name in "MOST_ITEMS", "MOST_COUNTED", "FILE_BYTES", "LINE_BYTES", "SHEET_BYTES":
            self.assertEqual(getattr(_library, name), sizes[name])
        self.assertEqual(_text.MOST_ITEMS, sizes["MOST_ITEMS"])

    def test_records(self):
        found = {}
        for name, record in RECORDS.items():
            fields = {field: getattr(record, field) for field, *_ in record._fields_}
            found[name] = ctypes.sizeof(record), {field: (place.offset, place.size) for field, place in fields.items()}
        self.assertEqual(found, declared.layouts())

    def test_calls(self):
        known = declared.calls()
        for name, (answer, arguments) in _library.CALLS.items():
            wanted_answer, wanted_arguments = known[name]
            self.assertIs(answer, TYPES[wanted_answer], name)
            self.assertEqual(arguments, [TYPES[argument] for argument in wanted_arguments], name)
