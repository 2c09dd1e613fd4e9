"""Small rotas and all their plans, by trying every order of the slots; nothing is shared with the library."""
import collections
import itertools
import random

from rota import Rota

# plans: pairs of slots and callouts, in dictionary order.
Case = collections.namedtuple("Case", "rota opens callouts plans")

T = (3, 7, 6), (1, 0, 4)


def callouts_of(callouts, plan):
    return sum(word >> slot & 1 for word, slot in zip(callouts, plan))


def case(opens, callouts=None):
    opens, callouts = tuple(opens), tuple(callouts or [0] * len(opens))
    found = [plan for plan in itertools.permutations(range(len(opens))) if all(word >> slot & 1 for word, slot in zip(opens, plan))]
    return Case(Rota.from_words(opens, callouts), opens, callouts, [(plan, callouts_of(callouts, plan)) for plan in found])


def short(opens):
    """The smallest of the item sets with the greatest shortage, and the shortage."""
    sets = [items for size in range(len(opens) + 1) for items in itertools.combinations(range(len(opens)), size)]

    def short_by(items):
        slots = 0
        for item in items:
            slots |= opens[item]
        return len(items) - bin(slots).count("1")

    worst = max(sets, key=short_by)  # of equals the first one, and sets are ordered by size
    return worst, short_by(worst)


def cases():
    """Rotas of each grade and without a plan, then random ones."""
    yield case(*T)
    for opens in ([7, 6, 6], [1, 1, 2, 14], [4, 4, 4, 15], [0, 3], [1], [0], [1, 3], [15] * 4, [15, 15, 15, 15, 31], [120, 115, 124, 63, 95, 111, 127]):
        yield case(opens)
        yield case(opens, opens)
    source = random.Random(11)
    for k in range(240):
        n, density, of_callouts = 1 + k % 6, source.choice((0.35, 0.6, 0.9)), source.choice((0, 0.3, 1))
        opens = [sum(1 << slot for slot in range(n) if source.random() < density) for _ in range(n)]
        yield case(opens, [sum(1 << slot for slot in range(n) if word >> slot & 1 and source.random() < of_callouts) for word in opens])
