"""Rota files, good and damaged, and the listing of each, from the rules of docs/RULES.md; nothing is shared with the library.

Plans come from a search in dictionary order, refusals from a reading of the file's layout. Where a case's result is known from how it was made, it
stands beside the case and is compared too.
"""
import functools
import random

MOST = 1000


# ---- the file

def with_check(body):
    """A block: 510 bytes and their sum, low byte first."""
    assert len(body) == 510
    return bytes(body) + (sum(body) % 65536).to_bytes(2, "little")


def body_of(n, number, items):
    """Bytes 0 to 509 of a block, from the (open, callout) words of the items in it."""
    body = bytearray(510)
    body[0:8] = b"ROTA" + bytes([1, n, number, len(items)])
    for i, (opens, callouts) in enumerate(items):
        body[14 + 16 * i:22 + 16 * i] = opens.to_bytes(8, "little")
        body[22 + 16 * i:30 + 16 * i] = callouts.to_bytes(8, "little")
    return body


def bodies(opens, callouts=None):
    """The blocks of a rota, without their checks."""
    n = len(opens)
    items = list(zip(opens, callouts or [0] * n))
    return [body_of(n, start // 31, items[start:start + 31]) for start in range(0, n, 31)]


def file_of(blocks):
    return b"".join(with_check(body) for body in blocks)


def rota(opens, callouts=None):
    return file_of(bodies(opens, callouts))


def read(data):
    """(refusal, open words, callout words) of a file's bytes."""
    if len(data) not in (512, 1024, 1536):
        return 12, [], []
    blocks = [data[k:k + 512] for k in range(0, len(data), 512)]
    if any(sum(b[:510]) % 65536 != b[510] + 256 * b[511] for b in blocks):
        return 13, [], []
    n = data[5]
    if not 1 <= n <= 64 or len(blocks) != 1 + (n > 31) + (n > 62):
        return 14, [], []
    opens, callouts = [], []
    for number, b in enumerate(blocks):
        here = min(31, n - 31 * number)
        if b[:14] != b"ROTA" + bytes([1, n, number, here, 0, 0, 0, 0, 0, 0]) or any(b[14 + 16 * here:510]):
            return 14, [], []
        for i in range(here):
            at = 14 + 16 * i
            opens.append(int.from_bytes(b[at:at + 8], "little"))
            callouts.append(int.from_bytes(b[at + 8:at + 16], "little"))
    if any(w >> n for w in opens):
        return 3, [], []
    if any(c & ~w for w, c in zip(opens, callouts)):
        return 4, [], []
    return 0, opens, callouts


# ---- the plans

def plans(opens):
    """The complete plans, in dictionary order."""
    n = len(opens)
    every = functools.reduce(lambda a, b: a | b, opens)
    if 0 in opens or every != (1 << n) - 1:
        return

    @functools.lru_cache(maxsize=None)
    def can_end(i, taken):
        if i == n:
            return True
        free = opens[i] & ~taken
        return any(free >> j & 1 and can_end(i + 1, taken | 1 << j) for j in range(n))

    def walk(i, taken, plan):
        if i == n:
            yield list(plan)
            return
        for j in range(n):
            if opens[i] >> j & 1 and not taken >> j & 1 and can_end(i + 1, taken | 1 << j):
                plan.append(j)
                yield from walk(i + 1, taken | 1 << j, plan)
                plan.pop()

    yield from walk(0, 0, [])


def listing(data):
    """The lines that the listing program writes for these bytes."""
    code, opens, callouts = read(data)
    if code:
        return ["refused %d" % code]
    lines = []
    last = None
    for plan in plans(opens):
        if len(lines) == MOST:
            last = "more %d" % MOST
            break
        number = sum(c >> j & 1 for c, j in zip(callouts, plan))
        lines.append("%d: %s / %d" % (len(lines) + 1, " ".join(map(str, plan)), number))
    if not lines:
        return ["refused 9"]
    return ["rota %d" % len(opens)] + lines + [last or "end %d" % len(lines)]


# ---- rotas with a known number of plans

def side_by_side(*parts):
    """Rotas that share no slot: the numbers of their plans multiply."""
    opens = []
    for part in parts:
        at = len(opens)
        opens += [w << at for w in part]
    return opens


def full(k):
    """Every cell open: k! plans."""
    return [(1 << k) - 1] * k


def ladder(k):
    """Item 0 may use any slot, item i slot i - 1 or i: k plans, one for each slot of item 0."""
    return [(1 << k) - 1] + [3 << (i - 1) for i in range(1, k)]


def band(k):
    """Item i may use slots i - 1, i and i + 1: 1, 2, 3, 5, 8, 13, .. plans."""
    return [(7 << i >> 1) & ((1 << k) - 1) for i in range(k)]


def shuffled(seed, opens):
    """Items and slots renamed: the number of plans stays."""
    source = random.Random(seed)
    n = len(opens)
    slots = list(range(n))
    source.shuffle(slots)
    renamed = [sum(1 << slots[j] for j in range(n) if w >> j & 1) for w in opens]
    source.shuffle(renamed)
    return renamed


def some_callouts(seed, opens):
    """About half of the open cells as callouts."""
    source = random.Random(seed)
    return [w & source.getrandbits(64) for w in opens]


# ---- the cases: name, bytes, and the last line where it is known beforehand

def good():
    t = ([3, 7, 6], [1, 0, 4])
    yield "t", rota(*t), "end 3"
    yield "7-6-6", rota([7, 6, 6]), "end 2"
    yield "1-1-2-14", rota([1, 1, 2, 14]), "refused 9"
    yield "0-3", rota([0, 3]), "refused 9"
    yield "one-item", rota([1]), "end 1"
    yield "one-item-callout", rota([1], [1]), "end 1"
    yield "one-item-none", rota([0]), "refused 9"
    yield "all-open-64", rota(full(64)), "more 1000"
    yield "all-open-6", rota(full(6)), "end 720"
    yield "all-open-7", rota(full(7), full(7)), "more 1000"
    thousand = side_by_side(full(2), band(4), full(2), band(4), full(2), band(4))
    yield "plans-1000", rota(thousand, some_callouts(1, thousand)), "end 1000"
    thousand = shuffled(2, side_by_side(ladder(8), ladder(5), ladder(5), ladder(5)))
    yield "plans-1000-mixed", rota(thousand, some_callouts(3, thousand)), "end 1000"
    above = side_by_side(ladder(7), ladder(11), ladder(13))
    yield "plans-1001", rota(above, some_callouts(4, above)), "more 1000"
    # an item more, for the last slot, which no other item may use: the number of plans stays
    one_open = shuffled(6, thousand + [1 << len(thousand)])
    yield "plans-1000-brittle", rota(one_open, some_callouts(7, one_open)), "end 1000"
    every_open = above + [(2 << len(above)) - 1]
    yield "plans-1001-brittle", rota(every_open, some_callouts(8, every_open)), "more 1000"
    for n in (2, 30, 31, 32, 61, 62, 63, 64):
        yield "identity-%d" % n, rota([1 << i for i in range(n)]), "end 1"
        backwards = [1 << (n - 1 - i) for i in range(n)]
        yield "backwards-%d" % n, rota(backwards, backwards), "end 1"
    for n in (31, 32, 62, 63, 64):
        parts = shuffled(n, side_by_side(ladder(3), ladder(4), *[[1]] * (n - 7)))
        yield "twelve-%d" % n, rota(parts, some_callouts(n, parts)), "end 12"
    yield "last-item-empty-64", rota(full(64)[:63] + [0]), "refused 9"
    yield "no-item-for-slot-63", rota([(1 << 63) - 1] * 64), "refused 9"
    yield "two-for-one-slot", rota([1 << i for i in range(63)] + [1 << 5]), "refused 9"
    yield "two-for-one-late", rota([1023] * 8 + [16, 16]), "refused 9"
    source = random.Random(5)
    for k in range(40):
        n = 1 + k % 7
        width = (1 << n) - 1
        opens = [source.getrandbits(n) | (source.getrandbits(n) if k % 3 else 0) for _ in range(n)]
        callouts = [w & source.getrandbits(n) & width for w in opens]
        yield "random-%02d" % k, rota(opens, callouts), None


def changed(blocks, number, at, value):
    """The blocks with one byte changed, the checks still to be made."""
    copies = [bytearray(b) for b in blocks]
    copies[number][at] = value
    return copies


def spoiled(data, at):
    """A file with one byte changed, the check as it was."""
    return data[:at] + bytes([data[at] ^ 1]) + data[at + 1:]


def damaged():
    t = bodies([3, 7, 6], [1, 0, 4])
    two = bodies([1 << i for i in range(32)])
    three = bodies([1 << i for i in range(63)])
    for length in (0, 1, 511, 513, 1023, 1025, 1535, 1537, 2048):
        yield "length-%d" % length, (file_of(t) * 4)[:length], 12

    for at in (0, 5, 14, 100, 509, 510, 511):
        yield "check-byte-%d" % at, spoiled(file_of(t), at), 13
    yield "check-high-first", file_of(t)[:510] + bytes([1, 82]), 13
    yield "check-block-1", spoiled(file_of(two), 512 + 20), 13
    yield "check-block-2", spoiled(file_of(three), 1024 + 511), 13
    yield "zeros-512", bytes(512), 14

    for at in range(4):
        yield "mark-%d" % at, file_of(changed(t, 0, at, t[0][at] + 32)), 14
    for value in (0, 2):
        yield "edition-%d" % value, file_of(changed(t, 0, 4, value)), 14
    for value in (0, 2, 4, 65, 255):
        yield "n-%d" % value, file_of(changed(t, 0, 5, value)), 14
    yield "number-1", file_of(changed(t, 0, 6, 1)), 14
    for value in (0, 2, 4, 31):
        yield "items-%d" % value, file_of(changed(t, 0, 7, value)), 14
    for at in range(8, 14):
        yield "header-%d" % at, file_of(changed(t, 0, at, 1)), 14
    for at in (62, 63, 300, 508, 509):
        yield "unused-%d" % at, file_of(changed(t, 0, at, 1)), 14
    yield "block-too-many", file_of(t + [body_of(3, 1, [])]), 14
    yield "block-twice", file_of(t + t), 14
    yield "block-missing", file_of(two[:1]), 14
    yield "block-2-missing", file_of(three[:2]), 14
    yield "blocks-swapped", file_of([two[1], two[0]]), 14
    yield "62-in-three", file_of(bodies([1 << i for i in range(62)]) + [body_of(62, 2, [])]), 14
    yield "65-in-three", file_of([body_of(65, b, [(1, 0)] * k) for b, k in ((0, 31), (1, 31), (2, 3))]), 14
    yield "n-differs", file_of(changed(two, 1, 5, 33)), 14
    yield "mark-block-2", file_of(changed(three, 2, 3, 66)), 14
    yield "number-block-1", file_of(changed(two, 1, 6, 0)), 14
    yield "items-block-1", file_of(changed(two, 1, 7, 31)), 14
    yield "unused-block-2", file_of(changed(three, 2, 30, 1)), 14

    ones = [1 << i for i in range(64)]
    yield "open-slot-3", rota([3, 7, 14]), 3
    yield "open-slot-63-of-63", rota(ones[:62] + [3 << 62]), 3
    yield "open-slot-31-of-31", rota(ones[:30] + [1 << 31]), 3
    yield "open-slot-32-of-32", rota(ones[:31] + [1 << 32]), 3
    yield "open-slot-1-of-1", rota([3]), 3
    yield "callout-closed", rota([3, 7, 6], [4, 0, 0]), 4
    yield "callout-slot-3", rota([3, 7, 6], [0, 0, 8]), 4
    yield "callout-slot-63", rota([3, 7, 6], [0, 1 << 63, 0]), 4
    yield "callout-block-2", rota(ones, [0] * 63 + [1]), 4

    # several wrong at once
    late_mark = changed(two, 1, 0, 0)
    yield "12-before-13", spoiled(file_of(t), 0) + b"\0", 12
    yield "13-before-14", spoiled(file_of(changed(t, 0, 4, 2)), 510), 13
    yield "13-late-14-early", spoiled(file_of(changed(two, 0, 4, 2)), 1023), 13
    yield "13-before-14-number", spoiled(file_of(t + t), 1023), 13
    yield "14-late-3-early", file_of([bodies([1 << 40] + ones[1:32])[0], late_mark[1]]), 14
    yield "14-late-4-early", file_of([bodies(ones[:32], [2] + [0] * 31)[0], late_mark[1]]), 14
    yield "14-before-3", file_of(changed(bodies([3, 7, 14]), 0, 13, 7)), 14
    yield "3-late-4-early", rota([3, 7, 14], [4, 0, 0]), 3
    yield "3-late-4-early-64", rota(ones[:62] + [1 << 63], [2] + [0] * 62), 3
    yield "3-and-no-plan", rota([1, 1, 8]), 3
    yield "4-and-no-plan", rota([1, 1, 1], [0, 0, 2]), 4


def cases():
    """Each case's name, its bytes and the lines of its listing."""
    made = list(good()) + [(name, data, "refused %d" % code) for name, data, code in damaged()]
    assert len({name for name, _, _ in made}) == len(made)
    for name, data, last in made:
        lines = listing(data)
        assert last in (None, lines[-1]), (name, lines[-1])
        yield name, data, lines
