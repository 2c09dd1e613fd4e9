"""Plans counted over the sets of slots that the items taken so far can fill, and who is short in a rota of many items."""
import itertools

from samples import slots_of


def layers(opens):
    """For each item, in order of the last slot: the item, and how many ways there are to fill each set of slots with the items before it.

    The sets after the last item come last. A set is left out if a slot outside it is open to no later item.
    """
    every = (1 << len(opens)) - 1
    order = sorted(range(len(opens)), key=lambda i: opens[i].bit_length())
    ways_to, made = {0: 1}, []
    for k, i in enumerate(order):
        later = 0
        for other in order[k + 1:]:
            later |= opens[other]
        made.append((i, ways_to))
        step = {}
        for taken, ways in ways_to.items():
            for j in slots_of(opens[i] & ~taken):
                now = taken | 1 << j
                if (now | later) & every == every:
                    step[now] = step.get(now, 0) + ways
        ways_to = step
    return made, ways_to


def count(opens):
    return layers(opens)[1].get((1 << len(opens)) - 1, 0)


def usable_words(opens):
    """From the last layer back: the cells that lead to a set from which all slots can be filled."""
    made, last = layers(opens)
    words, goals = [0] * len(opens), set(last)
    for i, ways_to in reversed(made):
        before = set()
        for taken in ways_to:
            for j in slots_of(opens[i] & ~taken):
                if taken | 1 << j in goals:
                    words[i] |= 1 << j
                    before.add(taken)
        goals = before
    return words


def shortage_of(words):
    """By how many the items with these open words are short; max takes the first of equals, and smaller sets come first."""
    slots = 0
    for word in words:
        slots |= word
    return len(words) - bin(slots).count("1")


def short_in_parts(opens):
    """The smallest set of the greatest shortage, put together from the parts of the rota that share no slot.

    In each part items with the same open word are all in it or none, because a further one needs no further slot.
    """
    items, shortage = [], 0
    for part in parts_of(opens):
        words = sorted({opens[i] for i in part})
        chosen = itertools.chain.from_iterable(itertools.combinations(words, size) for size in range(len(words) + 1))
        taken = [[i for i in part if opens[i] in some] for some in chosen]
        found = max(taken, key=lambda items: (shortage_of([opens[i] for i in items]), -len(items)))
        items, shortage = items + found, shortage + shortage_of([opens[i] for i in found])
    return sorted(items), shortage


def parts_of(opens):
    """The items, in groups that share no slot with each other."""
    parts = []
    for i, word in enumerate(opens):
        touched = [part for part in parts if part[1] & word]
        for part in touched:
            parts.remove(part)
            word |= part[1]
        parts.append(([i] + [k for part in touched for k in part[0]], word))
    return [part[0] for part in parts]
