"""The text form: n lines of m characters, a line for each item and a character for each slot."""
import re
from typing import List, Optional, Sequence, Tuple

from ._library import MOST_ITEMS
from ._refused import Code, Refused

MOST_BYTES = 1_048_576

_MARK = b"\xef\xbb\xbf"  # UTF-8's byte order mark
_LINE = re.compile(rb"[ \t\r]*([^ \t\r#]*)[ \t\r]*")  # the run of cells, and the blanks around it


class TextError(ValueError):
    r"""A text that is no rota, with the words of the command ``rota``.

    line, column  the place, both from 1, columns in bytes; both 0 where the text is too long
    words         what is wrong there

    >>> from rota import Rota
    >>> Rota.from_text("oo\nox\n")
    Traceback (most recent call last):
    rota.TextError: line 2, column 2: 'x' is no cell; a cell is . (closed), o (open) or C (open and a callout)
    """

    __module__ = "rota"

    def __init__(self, line: int, column: int, words: str) -> None:
        super().__init__(line, column, words)
        self.line = line
        self.column = column
        self.words = words

    def __str__(self) -> str:
        return f"line {self.line}, column {self.column}: {self.words}" if self.line else self.words


class _Reader:
    """The words of the items that have been read, line by line."""

    def __init__(self) -> None:
        self.m: Optional[int] = None  # set by the first line with cells
        self.opens: List[int] = []
        self.callouts: List[int] = []

    def line(self, number: int, line: bytes) -> None:
        found = _LINE.match(line)
        assert found is not None  # every line has a run, which may be empty
        run = found[1]
        if not run:
            return
        column = found.start(1) + 1
        for k, byte in enumerate(run):
            self.cell(number, column + k, k, byte)
        if self.m is None:
            self.m = len(run)
        if len(run) < self.m:
            raise TextError(number, column + len(run), f"there are fewer cells than in the first line: {len(run)}, not {self.m}")
        if line[found.end():found.end() + 1] not in (b"", b"#"):
            raise TextError(number, found.end() + 1, "nothing but a comment may follow the cells")
        self.opens.append(sum(1 << j for j, byte in enumerate(run) if byte in b"oC"))
        self.callouts.append(sum(1 << j for j, byte in enumerate(run) if byte in b"C"))

    def cell(self, number: int, column: int, k: int, byte: int) -> None:
        """Tests cell k of a line."""
        if byte not in b".oC":
            named = f"'{chr(byte)}'" if 0x21 <= byte <= 0x7e else f"byte {byte:02x}"
            raise TextError(number, column, f"{named} is no cell; a cell is . (closed), o (open) or C (open and a callout)")
        if self.m is None:
            if k == MOST_ITEMS:
                raise Refused(Code.BAD_N.value, more=f"line {number} has more than {MOST_ITEMS} cells")
            return
        self.check_lines(number, column, self.m, further=True)
        if k == self.m:
            raise TextError(number, column, f"there are more cells than the {self.m} of the first line")

    def check_lines(self, number: int, column: int, m: int, further: bool) -> None:
        """There are as many lines as the first one has cells. Tests that a further line, or else the end, may stand at this place."""
        n = len(self.opens)
        if further and n >= m:
            raise TextError(number, column, f"there are more lines of cells than the {m} that the first one asks for")
        if not further and n < m:
            raise TextError(number, column, f"there are fewer lines of cells than the first one asks for: {n}, not {m}")


def read_text(data: bytes) -> Tuple[List[int], List[int]]:
    """The open words and the callout words."""
    if len(data) > MOST_BYTES:
        raise TextError(0, 0, f"the text has more than {MOST_BYTES:,} bytes")
    lines = data[len(_MARK) if data.startswith(_MARK) else 0:].split(b"\n")
    if not lines[-1]:
        lines.pop()
    reader = _Reader()
    for number, line in enumerate(lines, 1):
        reader.line(number, line)
    if reader.m is None:
        raise Refused(Code.BAD_N.value, more="the text has no line of cells")
    reader.check_lines(len(lines) + 1, 1, reader.m, further=False)
    return reader.opens, reader.callouts


def write_text(m: int, opens: Sequence[int], callouts: Sequence[int]) -> str:
    def cell(i: int, j: int) -> str:
        return "C" if callouts[i] >> j & 1 else "o" if opens[i] >> j & 1 else "."

    return "".join("".join(cell(i, j) for j in range(m)) + "\n" for i in range(len(opens)))
