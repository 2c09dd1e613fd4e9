"""Ryser's formula, worked out for T: every set of slots with the open slots of each item, the product, the sign and what it adds."""
import re

from document import expect, number, numbers
from rotas import plans, rota_t

SETS = "Without a tally", "slots of the set", "open to items 0, 1, 2", "product", "sign", "adds"


def signed(text):
    """A number, with a minus or without."""
    minus = text.startswith("−")
    return -number(text[1:]) if minus else number(text)


def formula(doc, library):
    """Each row by T's words; the sum is the library's count, and the number of T's plans."""
    rota, total = rota_t(doc), 0
    n, opens, _ = rota
    rows = doc.table(*map(lambda column: column if column == SETS[0] else re.escape(column), SETS))
    expect(len(rows) == 1 << n, "sets of slots:", len(rows))
    for place, (slots, open_slots, product, sign, adds) in enumerate(rows):
        expect(numbers(slots) == [slot for slot in range(n) if place >> slot & 1], "the set", slots, "stands in the place of", place)
        factors, wanted = [bin(word & place).count("1") for word in opens], 1
        for factor in factors:
            wanted *= factor
        minus = (n - bin(place).count("1")) % 2 == 1
        expect(numbers(open_slots) == factors, "the set", slots, "- open are", factors)
        expect(number(product) == wanted, "the set", slots, "- the product is", wanted)
        expect(sign == ("−" if minus else "+"), "the set", slots, "- the sign", sign)
        expect(signed(adds) == (-wanted if minus else wanted) and adds != "−0", "the set", slots, "adds", adds)
        total += signed(adds)
    expect(total == len(plans(rota)) == library.count_plans_untallied(rota).numbers["count"], "the sum is", total)
    return len(rows), 4 * len(rows) + 1
