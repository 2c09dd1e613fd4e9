"""The shared library, found and loaded at first use, with the limits of ``rota.h``."""
import ctypes
import functools
import operator
import os
from pathlib import Path
from typing import Iterator

from ._calls import (CALLS, CountAnswer, GradeAnswer, Lister, NumberAnswer, PlanAnswer, PlanRecord, PriceAnswer,  # noqa: F401
                     ReadAnswer, WriteAnswer)

MOST_ITEMS = 64
MOST_COUNTED = 20
FILE_BYTES = 1536
LINE_BYTES = 32
SHEET_BYTES = 2080
NO_SLOT = 255  # each byte of the blank plan

MOST_32 = 2 ** 32 - 1
MOST_64 = 2 ** 64 - 1

NAME = "librota.so.1"


def fitting(value: int, most: int) -> int:
    """The value as a number that the library can be given; ctypes would take its low bits."""
    number = operator.index(value)
    if not 0 <= number <= most:
        raise OverflowError(f"{number} is no number from 0 to {most}")
    return number


def _places() -> Iterator[str]:
    """Where the library may be, in the order in which it is sought."""
    given = os.environ.get("ROTA_LIBRARY")
    if given:
        yield os.path.abspath(given)
        return
    yield NAME
    package = Path(__file__).resolve().parent
    folders = [package]
    if package.parent.name in ("site-packages", "dist-packages"):  # as in lib/python3/dist-packages
        folders.append(package.parent.parent.parent)
    for folder in folders:
        if (folder / NAME).is_file():
            yield str(folder / NAME)


def _declared(place: str) -> ctypes.CDLL:
    shared = ctypes.CDLL(place)
    for name, (answer, arguments) in CALLS.items():
        try:
            function = getattr(shared, name)
        except AttributeError:
            raise OSError(f"{place} does not have the call {name}") from None
        function.restype = answer
        function.argtypes = arguments
    return shared


@functools.lru_cache(maxsize=None)
def library() -> ctypes.CDLL:
    """The library, loaded once. A failure is not kept: the next call seeks it again."""
    failures = []
    for place in _places():
        try:
            return _declared(place)
        except OSError as error:
            failures.append(str(error))
    raise OSError(f"the library of rota can't be loaded: {'; '.join(failures)}; ROTA_LIBRARY may be set to the path of {NAME}")
