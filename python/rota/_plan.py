"""A complete plan, and numbers as sets of slots or items."""
from typing import Any, Iterable, Tuple


class Plan(Tuple[int, ...]):
    """The slots of items 0 upward, a tuple of n numbers. It compares as this tuple does.

    >>> plan = Plan((0, 2, 1), callouts=1)
    >>> plan[1], plan.callouts, plan == (0, 2, 1)
    (2, 1, True)
    >>> print(plan)
    0 2 1 / 1
    """

    __module__ = "rota"
    _callouts: int

    def __new__(cls, slots: Iterable[int], callouts: int) -> "Plan":
        plan = tuple.__new__(cls, slots)
        plan._callouts = callouts
        return plan

    @property
    def callouts(self) -> int:
        """How many of its cells are callouts."""
        return self._callouts

    def __reduce__(self) -> Tuple[Any, ...]:
        return type(self), (tuple(self), self._callouts)

    def __repr__(self) -> str:
        return f"Plan({tuple(self)}, callouts={self._callouts})"

    def __str__(self) -> str:
        """The plan's line, as the command has it."""
        return f"{' '.join(map(str, tuple(self)))} / {self._callouts}"


def members(word: int) -> Tuple[int, ...]:
    """The numbers of the bits that are set."""
    return tuple(j for j in range(word.bit_length()) if word >> j & 1)
