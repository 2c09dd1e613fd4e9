"""Rotas as the document names them, and what the test finds out about a rota by itself: by trying all plans of a small one.

A rota is (n, open words, callout words), as a call gets it; it may be one that is refused.
"""
import functools
import itertools

from document import Wrong, expect, match, number, numbers


def plain(opens, callouts=None):
    return len(opens), tuple(opens), tuple(callouts or [0] * len(opens))


def rota_t(doc):
    """T, from its table."""
    rows = doc.table("Rota T", "item", "open slots", "open word", "callout slots", "callout word")
    for place, (item, open_slots, open_word, callout_slots, callout_word) in enumerate(rows):
        expect(number(item) == place, "item", item)
        for slots, word in ((open_slots, open_word), (callout_slots, callout_word)):
            expect(sum(1 << slot for slot in numbers(slots)) == number(word), "slots", slots, "are not the word", word)
    return plain([number(row[2]) for row in rows], [number(row[4]) for row in rows])


def named(t, text):
    """The rota that these words of the document mean."""
    if text == "T":
        return t
    if text.startswith("open words "):
        tables = [numbers(words) for words in text[len("open words "):].split(", callout words ")]
        expect(all(word < 1 << 64 for words in tables for word in words), "a word above 64 bits:", text)
        expect(len(tables) < 3 and len(tables[0]) == len(tables[-1]), "not a callout word for each open word:", text)
        return plain(*tables)
    if text.endswith(" items, every cell open"):
        (n,) = match("# items, every cell open", text)
        return plain([(1 << min(number(n), 64)) - 1] * number(n))
    if text.endswith(" callouts"):
        n, slot = map(number, match("# items, every cell open, those of slot # callouts", text))
        expect(n <= 64 and slot < 64, "no bit of a word:", text)
        return plain([(1 << n) - 1] * n, [1 << slot] * n)
    n, slot = map(number, match("# items, slot # open to each", text))
    expect(slot < 64, "no bit of a word:", text)
    return plain([1 << slot] * n)


# ---- a rota's plans, by trying

def padded(slots):
    return bytes(slots) + bytes(64 - len(slots))


def word_at(words, i):
    return words[i] if i < len(words) else 0


@functools.lru_cache(maxsize=None)
def plans(rota):
    """The complete plans as records, in dictionary order. For rotas that have few; of more than 64 items or none there are none."""
    n, opens, _ = rota
    if not 1 <= n <= 64:
        return ()

    @functools.lru_cache(maxsize=None)
    def rest(i, taken):
        if i == n:
            return ((),)
        free = word_at(opens, i) & ~taken
        return tuple((j,) + tail for j in range(n) if free >> j & 1 for tail in rest(i + 1, taken | 1 << j))

    return tuple(padded(slots) for slots in rest(0, 0))


def reverse(rota):
    """The rota whose items stand in reverse order."""
    n, opens, callouts = rota
    return n, opens[::-1], callouts[::-1]


def last_counts(rota):
    """For each set of slots the number of ways to give them, all of them, to the last items, as many as the set has bits."""
    n, opens, _ = rota

    def ways(slots):
        items = opens[n - len(slots):]
        return sum(all(word >> slot & 1 for word, slot in zip(items, given)) for given in itertools.permutations(slots))

    return [ways([slot for slot in range(n) if word >> slot & 1]) for word in range(1 << n)]


def holding(found, n, item, slot):
    """The first of these plans of n items that gives the item this slot; None if there is none."""
    return next((plan for plan in found if item < n and plan[item] == slot), None)


def callouts_of(rota, plan):
    n, _, callouts = rota
    return sum(word_at(callouts, i) >> plan[i] & 1 for i in range(n))


@functools.lru_cache(maxsize=None)
def slots(rota, which):
    """Of each item the open slots, or the usable ones, as a word. A slot is usable if one of all complete plans gives it to the item."""
    if which == "open":
        return rota[1]
    return tuple(sum(1 << slot for slot in {plan[i] for plan in plans(rota)}) for i in range(rota[0]))


def with_one(rota, which):
    """The items that have just one such slot."""
    return [i for i, word in enumerate(slots(rota, which)) if bin(word).count("1") == 1]


def brittle(rota):
    """The items that all complete plans give the same slot; without a plan none."""
    return with_one(rota, "usable")


# ---- rotas with a known number of plans

NONE, ONE_OPEN, SEVERAL_OPEN, BETWEEN = KINDS = "no brittle item", "one slot open to it", "several slots open to it", "its slot open to others too"


def with_plans(wanted, kind=NONE):
    """A rota with so many complete plans, and with a brittle item of this kind; for BETWEEN the number is even. With one plan alone every item is brittle, and
    item 0 has one open slot."""
    opens = not_brittle(wanted // 2 if kind == BETWEEN else wanted)
    k = len(opens)
    if kind == BETWEEN:  # 7, 6, 6 behind the others, which doubles the plans; the brittle item's slot k is open to item 0 too
        expect(wanted % 2 == 0, "no such rota of an odd number of plans:", wanted)
        return plain([opens[0] | 1 << k] + opens[1:] + [7 << k, 6 << k, 6 << k])
    return plain(opens + {NONE: [], ONE_OPEN: [1 << k], SEVERAL_OPEN: [(2 << k) - 1]}[kind])  # slot k is open to no other item


def not_brittle(wanted):
    """The open words of a rota with so many complete plans and, where they are two or more, with two usable slots or more for each item.

    Item i may use slot i + 1, and of the slots up to i some. A plan is a cut of 0 .. k into runs: in a run from a to b item b has slot a, and the
    others the slot after their own. So with f(a) plans of the first a items, the last item of k adds up f(a) over its slots a. With all slots
    open f is 1, 1, 2, 4, 8, ..; the last item's slots make any sum of these.
    """
    if wanted == 1:
        return [1]
    ways = [1, 1]
    while sum(ways) < wanted:
        ways.append(sum(ways))
    last, missing = 0, wanted
    for a in reversed(range(len(ways))):
        if ways[a] <= missing and ways[a] < wanted:
            last |= 1 << a
            missing -= ways[a]
    k = len(ways)
    if missing:
        raise Wrong("no rota of %d plans" % wanted)
    return [(2 << (i + 1)) - 1 for i in range(k - 1)] + [last]


@functools.lru_cache(maxsize=None)
def count(rota):
    """The number of complete plans, item after item over the sets of slots."""
    n, opens, _ = rota
    ways = {0: 1}
    for word in opens:
        following = {}
        for taken, number_of in ways.items():
            for j in range(n):
                if word & ~taken & 1 << j:
                    following[taken | 1 << j] = following.get(taken | 1 << j, 0) + number_of
        ways = following
    return sum(ways.values())
