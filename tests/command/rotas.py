"""Rotas to ask about, as files and as texts, good and damaged."""
import functools
import random
from pathlib import Path

import cases
from reading import MARK, text_of
from reference import Tried, rota_of
from samples import ROTAS, slots_of

EXAMPLES = Path(__file__).resolve().parents[2] / "examples"

# Open words of docs/RULES.md, and callout words.
WORKED = [
    ([1],), ([1], [1]), ([0],), ([1, 3],), ([3, 1],), ([0, 3],), ([7, 6, 6],), ([2, 5, 5],), ([3, 3, 4],), ([6, 6, 6],), ([6, 7, 3], [2, 0, 3]),
    ([1, 1, 2, 14],), ([4, 4, 4, 15],), ([15] * 4, [15, 0, 8, 1]), ([15, 15, 15, 15, 31],), ([31] * 5, [31] * 5),
    ([7, 23, 147, 159, 222, 127, 254, 255], [0, 1, 0, 2, 4, 8, 16, 255]), ([7, 23, 147, 159, 222, 127, 254, 255, 257],),
    ([120, 115, 124, 63, 95, 111, 127],), ([120, 115, 124, 63, 95, 111, 127, 255], [0, 0, 0, 0, 0, 0, 0, 128]), ([120, 115, 126, 87, 95, 111, 127],),
    ([128, 120, 115, 126, 87, 95, 111, 127],), ([127] * 7, [127] * 7), ([127] * 7 + [255],),
]


T = Tried([3, 7, 6], [1, 0, 4])

# Every look of a cell stands in it: items 1 and 2 may change slots 1 and 2, and no plan uses any other open cell of items 1 to 3 but the last.
ALL_LOOKS = Tried([1, 7, 6, 15], [0, 5, 4, 14])


def side_by_side(source, n, broken=False):
    """A rota of n items made of small ones that share no slot; broken: in one of them all items have the same slot.

    Items are mixed, slots only with those near them: so the sets of slots that the reference goes over stay few.
    """
    opens = []
    while len(opens) < n:
        size = min(source.randint(2, 5), n - len(opens))
        part = [1] * size if broken and not opens else [source.getrandbits(size) | 1 << k for k in range(size)]
        opens += [word << len(opens) for word in part]
    slots = sorted(range(n), key=lambda j: j + 6 * source.random())
    opens = source.sample([sum(1 << slots[j] for j in slots_of(word)) for word in opens], n)
    return rota_of(opens, [word & source.getrandbits(n) for word in opens])


def small(source, most=6):
    """A rota of up to six items, from few open cells to many; more than half have a plan."""
    n = source.randint(1, most)
    dense = source.random()
    opens = [sum(1 << j for j in range(n) if source.random() < dense) for _ in range(n)]
    if source.random() < 0.6:
        opens = cases.shuffled(source.getrandbits(32), [word | 1 << i for i, word in enumerate(opens)])
    called = source.random()
    return rota_of(opens, [sum(1 << j for j in range(n) if word >> j & 1 and source.random() < called) for word in opens])


@functools.lru_cache(maxsize=None)
def samples():
    return {name: rota_of(*tables) for name, tables in ROTAS.items()}


def yards():
    """The texts of examples/."""
    return [path.read_bytes() for path in sorted(EXAMPLES.glob("*.txt"))]


# ---- their forms

def file_of(rota):
    return cases.rota(rota.opens, rota.callouts)


def tidy(rota):
    return text_of(rota.opens, rota.callouts).encode()


def blanks(source):
    return bytes(source.choice(b" \t\r") for _ in range(source.choice((0, 0, 1, 3))))


def comment(source):
    return b"#" + bytes(source.choice(b" .oC#x\t\r\0\xc3\xa9\xff") for _ in range(source.choice((0, 1, 4, 12))))


def written(source, rota):
    """The text as somebody might write it: blanks, blank lines, comments, carriage returns, a byte order mark, no last line feed."""
    made = b""
    for line in tidy(rota).splitlines():
        while source.random() < 0.25:
            made += blanks(source) + (comment(source) if source.random() < 0.5 else b"") + b"\n"
        made += blanks(source) + line + blanks(source) + (comment(source) if source.random() < 0.3 else b"") + b"\n"
    if source.random() < 0.3:
        made += blanks(source) + comment(source) + b"\n"
    if source.random() < 0.2:
        made = made.replace(b"\n", b"\r\n")
    return (MARK if source.random() < 0.2 else b"") + (made[:-1] if source.random() < 0.25 else made)


def edited(source, data):
    """Bytes with one place changed: a byte replaced, dropped or added, a line dropped, doubled or mixed up."""
    at = source.randrange(len(data) + 1)
    byte = bytes([source.choice(b".oC.oC.oC \t\r\n\n#OcxR'\0\x0b\x7f\x80\xc3\xff")])
    lines = data.split(b"\n")
    k = source.randrange(len(lines))
    return source.choice((
        data[:at] + byte + data[at + 1:],
        data[:at] + byte + data[at:],
        data[:at] + data[at + 1:],
        data[:at],
        b"\n".join(lines[:k] + lines[k + 1:]),
        b"\n".join(lines[:k] + [lines[k]] + lines[k:]),
        b"\n".join(lines[k:] + lines[:k]),
    ))


def form(source, rota):
    """A file or a text, at random."""
    return source.choice((file_of, tidy, lambda rota: written(source, rota)))(rota)


def seeded(part):
    """A source of random numbers that is the same in every run."""
    return random.Random(f"command {part}")
