#!/usr/bin/env python3
"""Writes the rota files of examples/, and knows the plans that the programs there show of their rotas.

usage: tests/samples.py DIR      (DIR/*.rota; DIR is examples)

The bytes come from cases.py's layout of the file. The plans come from a search of its own over all sets of slots
that the items taken so far can fill; nothing is shared with the library.
"""
import os
import sys

sys.dont_write_bytecode = True
from cases import rota, spoiled  # noqa: E402


# ---- a yard's day

def yard(stays, night, on_duty):
    """Two download points: slots 2t and 2t + 1 are their turn t.

    Item i is in the yard from its first to its last turn. From turn `night` on a slot is a callout, but not for the items on duty.
    """
    opens = [sum(3 << 2 * turn for turn in range(first, last + 1)) for first, last in stays]
    by_night = -1 << 2 * night
    return opens, [0 if i in on_duty else word & by_night for i, word in enumerate(opens)]


def twenty():
    """Ten turns, the last three by night. Items 0 to 11 are vehicle units, 12 to 19 driver cards; 6, 14 and 18 are on night duty."""
    units = [(0, 1), (2, 5), (0, 3), (6, 8), (1, 2), (3, 7), (5, 8), (0, 4), (4, 6), (7, 9), (2, 3), (6, 9)]
    cards = [(0, 2), (1, 4), (5, 8), (3, 4), (4, 9), (6, 7), (7, 9), (8, 9)]
    return yard(units + cards, 7, {6, 14, 18})


def sixty_four():
    """32 turns, the last eight by night. Two items are due at each turn; an item stays from the turn before to up to three turns after.

    Of the items that are due from turn 22 on those with odd numbers are on night duty.
    """
    due = [37 * i % 64 // 2 for i in range(64)]
    stays = [(max(turn - 1, 0), min(turn + i % 4, 31)) for i, turn in enumerate(due)]
    return yard(stays, 24, {i for i, turn in enumerate(due) if turn >= 22 and i % 2 == 1})


# ---- the samples: open words and callout words

ROTAS = {
    "three-items": ([3, 7, 6], [1, 0, 4]),
    "short-of-slots": ([1, 1, 2, 14], [0, 0, 0, 0]),
    "twenty-items": twenty(),
    "sixty-four-items": sixty_four(),
}


def samples():
    """Each sample's name and bytes. In the damaged one item 0 of T has lost slot 0, and the check is as it was."""
    for name, tables in ROTAS.items():
        yield name, rota(*tables)
    yield "damaged", spoiled(rota(*ROTAS["three-items"]), 14)


# ---- the plans

def slots_of(word):
    return [j for j in range(word.bit_length()) if word >> j & 1]


def fewest(opens, callouts):
    """The fewest callouts of a complete plan; None if there is none.

    It goes over the sets of slots that the first items, in order of their last slot, can fill, and drops a set if a slot outside
    it is open to no later item.
    """
    every = (1 << len(opens)) - 1
    order = sorted(range(len(opens)), key=lambda i: opens[i].bit_length())
    reached = {0: 0}
    for k, i in enumerate(order):
        later = 0
        for other in order[k + 1:]:
            later |= opens[other]
        step = {}
        for taken, cost in reached.items():
            for j in slots_of(opens[i] & ~taken):
                now, price = taken | 1 << j, cost + (callouts[i] >> j & 1)
                if (now | later) & every == every and price < step.get(now, price + 1):
                    step[now] = price
        reached = step
    return reached.get(every)


def first_with_fewest(opens, callouts):
    """The first plan in dictionary order of those with the fewest callouts; None if there is no plan."""
    best = fewest(opens, callouts)
    if best is None:
        return None
    left = list(opens)
    for i, word in enumerate(opens):
        for j in slots_of(word):
            left[i] = 1 << j
            if fewest(left, callouts) == best:
                break
    return [word.bit_length() - 1 for word in left]


def first(opens):
    return first_with_fewest(opens, [0] * len(opens))


def following(opens, plan):
    """The first plan after a given one; None if it is the last. It differs from the given one as late as may be."""
    for i in reversed(range(len(opens))):
        higher = opens[i] & -(2 << plan[i])
        after = first([1 << j for j in plan[:i]] + [higher] + opens[i + 1:])
        if after is not None:
            return after
    return None


def callouts_of(plan, callouts):
    return sum(word >> j & 1 for word, j in zip(callouts, plan))


def main():
    for name, data in samples():
        with open(os.path.join(sys.argv[1], name + ".rota"), "wb") as f:
            f.write(data)


if __name__ == "__main__":
    main()
