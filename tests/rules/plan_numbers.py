"""Plan numbers: T's beginnings as the document's table has them; and all plans of small rotas, found by trying, with their numbers and the tally."""
import functools
import itertools

from document import expect, number, numbers
from examples import FRESH, agrees
from library import FILL, bytes_of, left, words_of
from rotas import last_counts, padded, plain, plans, reverse, rota_t, with_plans

BEGINNINGS = "Plan numbers", "beginning", "slots left", "their word", "numbers of the plans"
FAR = (1 << 32, 1 << 63, (1 << 64) - 1)  # numbers that no plan of a small rota has, though some would be with fewer bits


def in_a_row(found):
    """Numbers of which each is one more than the one before, as the document writes them."""
    if not found:
        return "none"
    expect(found == list(range(found[0], found[-1] + 1)), "not in a row:", found)
    return str(found[0]) if len(found) == 1 else "%d to %d" % (found[0], found[-1])


def beginnings(doc, library, program):
    """Each beginning of T by T's words: what is left, how many plans begin so, by trying and by the tally, and their numbers. Then the small rotas."""
    rota = rota_t(doc)
    n, opens, _ = rota
    rows, tally = doc.table(*BEGINNINGS), words_of(left(library.plan_at(rota, 0, 1 << n), "tally"))
    wanted = [slots for length in range(1, n + 1) for slots in itertools.permutations(range(n), length)
              if all(word >> slot & 1 for word, slot in zip(opens, slots))]
    expect([row[0] for row in rows] == [" ".join(map(str, slots)) for slots in wanted], "T's beginnings are", wanted)
    for slots, (_, rest, word, these) in zip(wanted, rows):
        free = [slot for slot in range(n) if slot not in slots]
        found = [k for k, plan in enumerate(plans(rota)) if tuple(plan[:len(slots)]) == slots]
        expect(numbers(rest) == free, "after", slots, "are left", free)
        expect(number(word) == len(found) == tally[sum(1 << slot for slot in free)], "plans that begin with", slots, "-", len(found))
        expect(these == in_a_row(found), "the numbers of plans that begin with", slots, "are", found)
    return len(rows), 4 * len(rows) + listed(library, program, rota) + small(library)


def listed(library, program, rota):
    """The listing program's position, counted from 1, is one more than the plan's number."""
    lines = program.text(left(library.write_file(rota, 512), "file")).split("\n")[1:-2]
    expect(len(lines) == len(plans(rota)), "the program lists so many plans:", len(lines))
    for line in lines:
        position, slots = line.split(" / ")[0].split(": ")
        plan = padded([int(slot) for slot in slots.split(" ")])
        agrees(library.plan_at(rota, int(position) - 1, 1 << rota[0]), 0, "the program's line " + line, plan)
    return len(lines)


@functools.lru_cache(maxsize=None)
def small(library):
    """Every rota of up to three items, and some larger ones."""
    every = [plain(opens) for n in (1, 2, 3) for opens in itertools.product(range(1 << n), repeat=n)]
    larger = [plain([15] * 4), plain([31, 29, 11, 7, 22], [1, 8, 0, 4, 16]), plain([1, 3, 7, 15, 31]), plain([31, 30, 28, 24, 16])]
    return sum(numbered(library, rota) + refused(library, rota) for rota in every + larger + [with_plans(24), with_plans(999)])


def numbered(library, rota):
    """Each plan by its number, as a lister gives it, and its number; the tally after each, up to five items by trying too."""
    n, found, lister, places = rota[0], plans(rota), FRESH, (1 << rota[0]) + 2
    tally = left(library.count_plans(reverse(rota), places), "tally")
    if n < 6:
        expect(tally == bytes_of(last_counts(rota)) + FILL * 16, rota, "- by trying the tally is", last_counts(rota))
    for k, plan in enumerate(found):
        listed_at, by_number, back = library.list_plan(rota, lister), library.plan_at(rota, k, places), library.plan_number(rota, plan, places)
        lister = left(listed_at, "lister")
        agrees(listed_at, 0, "call %d of a lister over %s" % (k + 1, rota), plan)
        agrees(by_number, 0, "plan %d of %s" % (k, rota), plan)
        agrees(back, 0, "the number of %s" % list(plan[:n]), number=k)
        expect(left(by_number, "tally") == left(back, "tally") == tally, "after plan", k, "another tally of", rota)
    return 4 * len(found)


def refused(library, rota):
    """Numbers from the count on, and, of small rotas, every record of slots up to n that is no plan."""
    n, found = rota[0], plans(rota)
    beyond = (len(found), len(found) + 1) + FAR
    for k in beyond:
        agrees(library.plan_at(rota, k, 1 << n), 16, "plan %d of %s" % (k, rota))
    records = map(padded, itertools.product(range(n + 1), repeat=n)) if n < 3 or rota[1] == (7, 7, 7) else ()
    others = [record for record in records if record not in found]
    for record in others:
        agrees(library.plan_number(rota, record, 1 << n), 8, "the number of %s" % list(record[:n]))
    return len(beyond) + len(others)
