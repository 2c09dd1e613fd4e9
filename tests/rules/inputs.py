"""Inputs where wanted refusals fit, for the order of tests, and inputs at the bounds."""
import itertools

from examples import BLANK
from refusals import Input
from rotas import padded, plain

ON_TABLES = (1, 2, 3, 4, 5, 6, 7, 8, 9, 10, 11, 15, 16)
OUTSIDE = 0  # wanted beside these numbers: a cell outside of the rota, which is no refusal
ON_FILES = (12, 13, 14, 3, 4, 15, 8, 9, 10, 11)


def chosen(codes):
    """Every number alone, every two, and none."""
    return [set()] + [{code} for code in codes] + [set(pair) for pair in itertools.combinations(codes, 2)]


def cells(wanted, n):
    """Open and callout words of n items where the wanted of 3, 4, 9 and 11 fit; else there are two plans, 0 1 2 .. and 1 0 2 .."""
    opens = [1 << i if i < 64 else 0 for i in range(n)]
    opens[:2] = [1, 1][:n] if 9 in wanted else [3, 3][:n]
    if n == 0 and 3 in wanted:
        opens = [1]
    callouts = list(opens) if 11 in wanted else [0] * len(opens)
    if 3 in wanted and n:
        opens[-1] |= 1 << n
    if 4 in wanted and opens:
        callouts[0] |= 1 << 5 if n < 5 else 1 << 3
    return opens, callouts


def given(wanted, n):
    """A plan: none of the rota where 8 is wanted, the last one where 10 is, and bytes after it."""
    if 8 in wanted:
        plan = BLANK if 10 in wanted else padded([0, 0])
    else:
        plan = padded(([1, 0] if 10 in wanted else [0, 1]) + list(range(2, min(n, 64))))
    return plan + bytes([255] * 6)


def page(n):
    """The bytes of a sheet of n items."""
    return (n + 1) * 32


def on_tables(wanted, longer=(0, 1)):
    """Tables; where 2 is wanted, this many words more of open and of callout words."""
    n = 21 if 5 in wanted else 2
    if 1 in wanted:
        n = 0 if 3 in wanted else 65
    opens, callouts = cells(wanted, n)
    if 2 in wanted:
        opens, callouts = ((words + [0] * more)[:len(words) + more] for words, more in zip((opens, callouts), longer))
    tally = (1 << n) - (6 in wanted)
    if n > 20 and wanted != {5}:
        tally = 0  # what n asks for is much, and a call that tests n looks no further
    short = 15 in wanted
    return Input((n, tuple(opens), tuple(callouts)), None, given(wanted, n)[:64], 0 if 11 in wanted else 64, 0 if 7 in wanted else 100,
                 n - 1 if short and n else n + 2, 511 if short else 1536, tally, (n, 0) if OUTSIDE in wanted else (0, 1), page(n) - short,
                 2 if 16 in wanted else 1)


def on_file(layout, wanted, n=2):
    opens, callouts = cells(wanted, n)
    blocks = layout.bodies((n, tuple(opens), tuple(callouts)))
    if 14 in wanted:
        blocks[0][layout.at["zeros"][0]] ^= 7
    data = bytearray(b"".join(layout.check(body) for body in blocks))
    if 13 in wanted:
        data[-1] ^= 1
    if 12 in wanted:
        data += b"\0"
    short = 15 in wanted
    return Input(None, bytes(data), given(wanted, n), 0 if 11 in wanted else 64, 100, n - 1 if short else n + 2, 63 if short else 70, 0)


def tables_at_bounds(bounds):
    """n, lengths of tables, tallies, fleets and plan numbers around what the document names and around what is known, each alone."""
    good = on_tables(set())
    sizes = {n + more for n in bounds[1] + (1, 64) for more in (-1, 0, 1)} - {-1}
    for n in sorted(sizes):
        yield good._replace(rota=plain([1 << i if i < 64 else 0 for i in range(n)]), given=padded(range(min(n, 64))), words=n, bytes=1536, tally=1 << min(n, 8),
                            page=page(n), number=0)
    for n in sorted({bounds[5][0], bounds[5][0] + 1, 20, 21}):
        yield good._replace(rota=plain([1 << i for i in range(n)]), given=padded(range(n)), words=n, tally=1 << n, page=page(n), number=0)
    for longer in ((1, 0), (-1, 0), (0, -1), (1, 1), (-1, -1), (-2, -2)):
        yield on_tables({2}, longer)
    for tally in (0, 1, 2, 3, 4, 5, bounds[6][0] ** 2 - 1):
        yield good._replace(tally=tally)
    for vehicles in sorted({v + more for v in bounds[7] + (0, 10000) for more in (0, 1)} | {2 ** 64 - 1}):
        yield good._replace(vehicles=vehicles)
    for words, size in ((0, 0), (1, 511), (2, 512), (3, 513)):
        yield good._replace(words=words, bytes=size)
    for bytes_ in (0, 32, 64, 95, 96, 97, 128):
        yield good._replace(page=bytes_)
    for number in (0, 1, 2, 3, 1 << 32, 1 << 63, 2 ** 64 - 1):
        yield good._replace(number=number)
    for slots in ([0, 2], [64, 1], [0, 65], [255, 1], [0, 1, 1], [0, 1] + [0] * 61 + [1]):
        yield good._replace(given=padded(slots))


def files_at_bounds(layout, bounds):
    """Lengths, sizes of rotas, room; and what is wrong early and late in a file of two blocks."""
    good = on_file(layout, set())
    for length in sorted({size + more for size in bounds[12] + (0, 512, 1024, 1536, 2048) for more in (-1, 0, 1)} - {-1}):
        yield good._replace(data=bytes(length))
    for n in (1, 30, 31, 32, 62, 63, 64):
        yield on_file(layout, set(), n)._replace(words=n)
    (body,) = layout.bodies(plain([1]))
    for n in sorted({0, 1, 2, 65, 255} | {end + more for end in bounds[14] for more in (-1, 0, 1)} & set(range(256))):
        body[5] = n
        yield good._replace(data=layout.check(body))
    many = [layout.body(65, block, [(1, 0)] * items) for block, items in ((0, 31), (1, 31), (2, 3))]
    yield good._replace(data=b"".join(map(layout.check, many)))
    for words, size in ((0, 0), (1, 63), (2, 64), (3, 65)):
        yield good._replace(words=words, bytes=size)
    for wanted in ({13, 14}, {14, 3}, {14, 4}, {3, 4}, {13, 3}, {13, 4}):
        yield on_file(layout, wanted, 32)
    late = layout.bodies((32,) + tuple(map(tuple, cells({3, 4}, 32))))
    late[1][layout.at["zeros"][1]] = 1
    yield good._replace(data=b"".join(map(layout.check, late)))
