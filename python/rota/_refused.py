"""Refusals: the library's numbers, what each says, and the exception that brings one."""
import enum
from typing import Any, Tuple

from ._plan import members


class Code(enum.IntEnum):
    """The numbers of ``enum rota_code`` in ``rota.h``.

    >>> Code.NO_PLAN == 9
    True
    """

    __module__ = "rota"

    DONE = 0
    BAD_N = 1
    BAD_TABLE_LENGTH = 2
    SLOT_OUTSIDE = 3
    CALLOUT_NOT_OPEN = 4
    TOO_MANY_TO_COUNT = 5
    TALLY_TOO_SHORT = 6
    BAD_FLEET = 7
    NOT_A_PLAN = 8
    NO_PLAN = 9
    NO_FURTHER_PLAN = 10
    OVER_CAP = 11
    BAD_FILE_LENGTH = 12
    BAD_CHECK = 13
    BAD_LAYOUT = 14
    OUTPUT_TOO_SHORT = 15
    NO_SUCH_PLAN = 16


TEXTS = (
    "done",
    "the rota does not have 1 to 64 items",
    "a table does not have one word for each item",
    "an item is open for a slot that the rota does not have",
    "a callout stands where the slot is not open to the item",
    "only rotas of up to 20 items are counted, graded and priced",
    "the tally is too short to count the plans",
    "the fleet does not have 1 to 10,000 vehicles",
    "the given plan is no complete plan of this rota",
    "there is no complete plan",
    "no complete plan follows the given one",
    "even the fewest callouts are more than the cap",
    "the file does not have 512, 1,024 or 1,536 bytes",
    "the check of a block is wrong, so the file is damaged",
    "the file is not laid out as a rota file",
    "there is too little room for the result",
    "no complete plan has this plan number",
)


def code_text(code: int) -> str:
    return TEXTS[code] if code < len(TEXTS) else "the library has no such number"


def who_is_short(items: Tuple[int, ...], shortage: int) -> str:
    """As in ``items 0, 1 and 4 are short by 2 slots``."""
    *others, last = map(str, items)
    named = f"items {', '.join(others)} and {last} are" if others else f"item {last} is"
    return f"{named} short by {shortage} slot{'' if shortage == 1 else 's'}"


class Refused(Exception):
    """A call that is refused, with the words of the command ``rota``.

    code      the number; Code has names for them
    text      what the number says
    items     with 9 the short items, else none
    shortage  with 9 how many slots they are short by, else 0
    callouts  with 11 the fewest callouts, else 0
    more      what is said after the text, or nothing

    >>> from rota import Rota
    >>> try:
    ...     Rota.from_words([1, 1, 2, 14]).first()
    ... except Refused as refused:
    ...     print(refused)
    ...     print(refused.code, refused.items, refused.shortage)
    refused 9: there is no complete plan; items 0 and 1 are short by 1 slot
    9 (0, 1) 1
    """

    __module__ = "rota"

    def __init__(self, code: int, items: Tuple[int, ...] = (), shortage: int = 0, callouts: int = 0, more: str = "") -> None:
        super().__init__(code, items, shortage, callouts, more)
        self.code = code
        self.text = code_text(code)
        self.items = items
        self.shortage = shortage
        self.callouts = callouts
        self.more = more

    def __str__(self) -> str:
        return f"refused {self.code}: {self.text}" + (f"; {self.more}" if self.more else "")


def accepted(answer: Any, cap: int = 0) -> Any:
    """The answer of a call. A refusal in it is raised; the cap stands in the words of 11."""
    code = answer if isinstance(answer, int) else answer.code
    if code == Code.DONE:
        return answer
    items, shortage, callouts = members(getattr(answer, "items", 0)), getattr(answer, "shortage", 0), getattr(answer, "callouts", 0)
    more = ""
    if code == Code.NO_PLAN:
        more = who_is_short(items, shortage)
    elif code == Code.OVER_CAP:
        more = f"the fewest are {callouts}, the cap is {cap}"
    raise Refused(code, items, shortage, callouts, more)
