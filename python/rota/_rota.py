"""A rota, and all that the library answers about it."""
import ctypes
import operator
import os
from typing import Any, Iterable, Iterator, Optional, Tuple, Union

from ._calls import Lister, PlanRecord
from ._command import draw
from ._library import FILE_BYTES, LINE_BYTES, MOST_32, MOST_64, MOST_COUNTED, MOST_ITEMS, NO_SLOT, SHEET_BYTES, fitting, library
from ._plan import Plan, members
from ._refused import Code, Refused, accepted
from ._text import MOST_BYTES, read_text, write_text

_BLANK = bytes([NO_SLOT] * MOST_ITEMS)


class Rota:
    r"""n items and n slots, and which cells are open or callouts. It is accepted when it is made, and never changes.

    It is made by from_text, from_file, from_bytes or from_words. Two rotas are equal if their words are.

    What is refused raises Refused. A number that is below 0 or has more bits than the library takes (64; a cap 32) raises OverflowError.

    A given plan is a Plan or any other sequence of n slots. What is no complete plan of the rota is refused by 8, also if it has another number of slots.

    >>> t = Rota.from_text("Co.\nooo\n.oC\n")
    >>> t
    Rota.from_words((3, 7, 6), (1, 0, 4))
    >>> t.n, t.opens, t.callouts
    (3, (3, 7, 6), (1, 0, 4))
    """

    __module__ = "rota"
    __slots__ = ("_m", "_opens", "_callouts", "_tables")

    def __init__(self, opens: Iterable[int], callouts: Optional[Iterable[int]] = None) -> None:
        self._opens = tuple(fitting(word, MOST_64) for word in opens)
        self._callouts = tuple(fitting(word, MOST_64) for word in callouts) if callouts is not None else (0,) * len(self._opens)
        n, of_callouts = len(self._opens), len(self._callouts)
        self._m = n  # a slot for each item
        self._tables = (n, (ctypes.c_uint64 * n)(*self._opens), n, (ctypes.c_uint64 * of_callouts)(*self._callouts), of_callouts)
        self._call("rota_cell_plan", n, self._m)  # of a cell outside of the rota, so that nothing but the tables is tested

    # ---- making one

    @classmethod
    def from_words(cls, opens: Iterable[int], callouts: Optional[Iterable[int]] = None) -> "Rota":
        """The rota of these open words and callout words; without callout words it has no callouts. Refused by 1 to 4.

        >>> Rota.from_words([3, 7, 6], [1, 0, 4]).to_text().split()
        ['Co.', 'ooo', '.oC']
        >>> Rota.from_words([3, 7, 14])
        Traceback (most recent call last):
        rota.Refused: refused 3: an item is open for a slot that the rota does not have
        """
        return cls(opens, callouts)

    @classmethod
    def from_text(cls, text: Union[str, bytes]) -> "Rota":
        r"""The rota of a text: a line for each item and in it a character for each slot, ``.`` closed, ``o`` open, ``C`` open and a callout.

        Blanks around the cells, blank lines and comments from ``#`` on are passed over. What is no such text raises TextError; refused by 1 if it has no
        cells or more than 64 in its first line.

        >>> Rota.from_text("oo  # unit 17\no.\n").first()
        Plan((1, 0), callouts=0)
        """
        return cls(*read_text(text.encode("utf-8", "surrogatepass") if isinstance(text, str) else text))

    @classmethod
    def from_bytes(cls, data: Union[bytes, bytearray, memoryview]) -> "Rota":
        """The rota of a rota file's bytes, which begin with ``ROTA``, or of a text's. A file is refused by 12, 13, 14, 3 and 4.

        >>> t = Rota.from_words([3, 7, 6], [1, 0, 4])
        >>> Rota.from_bytes(t.to_file()) == Rota.from_bytes(t.to_text().encode()) == t
        True
        """
        given = memoryview(data).tobytes()
        if not given.startswith(b"ROTA"):
            return cls.from_text(given)
        opens, callouts = (ctypes.c_uint64 * MOST_ITEMS)(), (ctypes.c_uint64 * MOST_ITEMS)()
        file = (ctypes.c_uint8 * len(given)).from_buffer_copy(given)
        n = accepted(library().rota_read_file(file, len(given), opens, MOST_ITEMS, callouts, MOST_ITEMS)).n
        return cls(opens[:n], callouts[:n])

    @classmethod
    def from_file(cls, path: Union[str, "os.PathLike[str]"]) -> "Rota":
        """The rota of a file with either form, as from_bytes has it. What can't be read raises OSError."""
        with open(path, "rb") as file:
            return cls.from_bytes(file.read(MOST_BYTES + 1))

    # ---- what it is

    @property
    def n(self) -> int:
        """The number of items, and of slots."""
        return len(self._opens)

    @property
    def opens(self) -> Tuple[int, ...]:
        """The open words."""
        return self._opens

    @property
    def callouts(self) -> Tuple[int, ...]:
        """The callout words."""
        return self._callouts

    def __eq__(self, other: object) -> bool:
        if not isinstance(other, Rota):
            return NotImplemented
        return self._opens == other._opens and self._callouts == other._callouts

    def __hash__(self) -> int:
        return hash((self._opens, self._callouts))

    def __repr__(self) -> str:
        return f"Rota.from_words({self._opens}, {self._callouts})"

    def __reduce__(self) -> Tuple[Any, ...]:
        return type(self), (self._opens, self._callouts)

    def to_text(self) -> str:
        """The text form: n lines and nothing else."""
        return write_text(self._m, self._opens, self._callouts)

    def to_file(self) -> bytes:
        """The bytes of the rota file.

        >>> len(Rota.from_words([3, 7, 6], [1, 0, 4]).to_file())
        512
        """
        file = (ctypes.c_uint8 * FILE_BYTES)()
        return bytes(file[:self._call("rota_write_file", file, len(file)).bytes])

    def svg(self) -> str:
        """A picture of the rota, drawn by the command ``rota``; OSError if it can't be run or fails."""
        return draw(self.to_text())

    # ---- its plans

    def first(self) -> Plan:
        """The first plan in dictionary order. Refused by 9.

        >>> Rota.from_words([3, 7, 6], [1, 0, 4]).first()
        Plan((0, 1, 2), callouts=2)
        """
        return self._plan(self._call("rota_first_plan"))

    def next(self, plan: Iterable[int]) -> Plan:
        """The plan after a given one. Refused by 8 and 10.

        >>> Rota.from_words([3, 7, 6], [1, 0, 4]).next((0, 1, 2))
        Plan((0, 2, 1), callouts=1)
        """
        return self._plan(self._call("rota_next_plan", self._record(plan)))

    def plans(self) -> Iterator[Plan]:
        """All plans in dictionary order, each found when it is asked for. A rota without a plan has an empty listing, and nothing is refused.

        >>> [tuple(plan) for plan in Rota.from_words([3, 7, 6], [1, 0, 4]).plans()]
        [(0, 1, 2), (0, 2, 1), (1, 0, 2)]
        >>> list(Rota.from_words([0, 3]).plans())
        []
        """
        lister = Lister()
        while True:
            answer = library().rota_list_plan(ctypes.byref(lister), *self._tables)
            if answer.code in (Code.NO_PLAN, Code.NO_FURTHER_PLAN):
                return
            yield self._plan(accepted(answer))

    def fewest(self, cap: Optional[int] = None) -> Plan:
        """The first of the plans with the fewest callouts; its callouts are that number. Refused by 9, and by 11 if the number is above the cap.

        >>> t = Rota.from_words([3, 7, 6], [1, 0, 4])
        >>> t.fewest()
        Plan((0, 2, 1), callouts=1)
        >>> t.fewest(cap=0)
        Traceback (most recent call last):
        rota.Refused: refused 11: even the fewest callouts are more than the cap; the fewest are 1, the cap is 0
        """
        most = MOST_32 if cap is None else fitting(cap, MOST_32)
        answer = accepted(library().rota_fewest_callouts(*self._tables, most), most)
        return Plan(answer.plan.slots[:self.n], answer.callouts)

    def cell(self, item: int, slot: int) -> Optional[Plan]:
        """The first plan that gives this item this slot; None if no plan does.

        >>> t = Rota.from_words([3, 7, 6], [1, 0, 4])
        >>> t.cell(1, 2)
        Plan((0, 2, 1), callouts=1)
        >>> t.cell(0, 2) is None
        True
        """
        answer = self._call("rota_cell_plan", fitting(item, MOST_64), fitting(slot, MOST_64))
        return None if answer.plan.slots[0] == NO_SLOT else self._plan(answer)

    def usable(self) -> Tuple[Tuple[int, ...], ...]:
        """For each item the slots that some plan gives it, in order; without a plan none.

        >>> Rota.from_words([7, 6, 6]).usable()
        ((0,), (1, 2), (1, 2))
        """
        words = (ctypes.c_uint64 * self.n)()
        self._call("rota_usable_slots", words, self.n)
        return tuple(map(members, words))

    def short(self) -> Tuple[Tuple[int, ...], int]:
        """The items that are short, and by how many slots; none and 0 if there is a plan.

        >>> Rota.from_words([1, 1, 2, 14]).short()
        ((0, 1), 1)
        """
        try:
            self.first()
        except Refused as refused:
            return refused.items, refused.shortage
        return (), 0

    def sheet(self, plan: Iterable[int]) -> str:
        """The sheet of a given plan, for the wall of the yard: a heading and a line for each item, 32 characters each. Refused by 8.

        >>> t = Rota.from_words([3, 7, 6], [1, 0, 4])
        >>> for line in t.sheet(t.fewest()).splitlines():
        ...     print(line.rstrip())
        IT    SL    C
         0     0    C
         1     2
         2     1
        """
        page = (ctypes.c_uint8 * SHEET_BYTES)()
        self._call("rota_plan_sheet", self._record(plan), page, len(page))
        return bytes(page[:(self.n + 1) * LINE_BYTES]).decode("ascii")

    # ---- up to 20 items: the number of plans and what goes by it

    def count(self) -> int:
        """The number of plans. Refused by 5.

        >>> Rota.from_words([3, 7, 6]).count(), Rota.from_words([0, 3]).count()
        (3, 0)
        """
        count: int = self._call("rota_count_plans_untallied").count
        return count

    def plan(self, k: int) -> Plan:
        """The plan that has k plans before it. Refused by 5, and by 16 if there is none. It takes 2 to the power n words of memory for the call.

        >>> Rota.from_words([3, 7, 6], [1, 0, 4]).plan(2)
        Plan((1, 0, 2), callouts=1)
        """
        return self._plan(self._call("rota_plan_at", fitting(k, MOST_64), *self._tally()))

    def number(self, plan: Iterable[int]) -> int:
        """How many plans stand before a given one. Refused by 5 and 8. It takes 2 to the power n words of memory for the call.

        >>> Rota.from_words([3, 7, 6], [1, 0, 4]).number((1, 0, 2))
        2
        """
        number: int = self._call("rota_plan_number", self._record(plan), *self._tally()).number
        return number

    def grade(self) -> int:
        """The grade, 1 to 5. Refused by 5 and 9.

        >>> Rota.from_words([3, 7, 6]).grade()
        3
        """
        grade: int = self._call("rota_grade_untallied").grade
        return grade

    def price(self, vehicles: int) -> int:
        """The monthly price of a fleet of 1 to 10,000 vehicles, in cents. Refused by 5, 7 and 9.

        >>> Rota.from_words([3, 7, 6], [1, 0, 4]).price(vehicles=100)
        33000
        """
        cents: int = self._call("rota_monthly_price_untallied", fitting(vehicles, MOST_64)).cents
        return cents

    # ---- calling the library

    def _call(self, name: str, *arguments: Any) -> Any:
        """What a call on the tables answers."""
        return accepted(getattr(library(), name)(*self._tables, *arguments))

    def _tally(self) -> Tuple[Any, int]:
        """A tally and its length; none above 20 slots, where the call asks for none."""
        places = 1 << self._m if self._m <= MOST_COUNTED else 0
        return (ctypes.c_uint64 * places)(), places

    def _record(self, plan: Iterable[int]) -> PlanRecord:
        """The record of a given plan. Where it has other than n slots, or one that is no byte, the blank plan, which is no complete plan of any rota."""
        slots = [operator.index(slot) for slot in plan]
        fits = len(slots) == self.n and all(0 <= slot <= 255 for slot in slots)
        return PlanRecord.from_buffer_copy(bytes(slots).ljust(MOST_ITEMS, b"\0") if fits else _BLANK)

    def _plan(self, answer: Any) -> Plan:
        slots = answer.plan.slots[:self.n]
        return Plan(slots, sum(word >> slot & 1 for word, slot in zip(self._callouts, slots)))
