"""Numbers that stand in the rules' sentences. What each should be is found out from the library: the code that a call gives, the bound at which it gives it."""
import ctypes
import re

from document import NUMBER, expect, match, number
from files import sample
from library import left, words_of
from pricing import GRADED, fitting, rules
from rotas import named, plain, rota_t, with_plans

B = plain([7, 6, 6])  # a rota that is graded step by step, for its brittle item
M = plain([120, 115, 124, 63, 95, 111, 127, 255])  # one of many plans; its last item is brittle
LAST = bytes([1, 0, 2]) + bytes(61)  # T's last plan

# A rule, a sentence of it with # for each number, and the names of what is found out below; a name may stand for some numbers in a row.
SENTENCES = (
    ("Items and slots", "n is # to #", "least-n most-n"),
    ("Open and callout words", "two tables of n #-bit words", "word"),
    ("Plan record", "a record of # bytes", "plan"),
    ("Blank plan", "is # bytes of #", "plan blank"),
    ("First plan", "; # if there is none", "no-plan"),
    ("Next plan", "(else #); # if none follows", "not-a-plan no-further"),
    ("Next plan", "the answer is # and never #", "not-a-plan no-plan"),
    ("Fewest callouts", "; # if there is no plan. If the number exceeds the cap r, a #-bit number, the answer is #", "no-plan cap over-cap"),
    ("Cell's plan", "the number is #, and the plan's first byte is #", "unheld blank"),
    ("Cell's plan", "whichever #-bit number it is", "size"),
    ("Cell's plan", "by # to #, and nothing else. It never gives #,", "bad-n not-open no-plan"),
    ("Plan sheet", "Each line is # bytes", "line"),
    ("Plan sheet", "the line of item i at byte (i + #) × #, and the sheet has (n + #) × # bytes", "headings line headings line"),
    ("Plan sheet", "one below # has a space before it", "two-digits"),
    ("Plan sheet", "by # to #, the call tests the page: # if it has fewer than (n + #) × # bytes", "bad-n not-open no-page headings line"),
    ("Plan sheet", "Then it tests the given plan: # if that is no complete plan", "no-sheet"),
    ("Plan sheet", "so the answer is # and never #", "no-sheet-at-all no-plan"),
    ("Usable table", "all n words are #, and that is no refusal", "unusable"),
    ("Shortage", "Comes with refusal #.", "no-plan"),
    ("Count", "For n up to #; above, #. A count of # is a success.", "most-counted too-many no-plans"),
    ("Count", "whether n is above #", "most-counted"),
    ("Tally", "at least # to the power n of them (else #)", "tally-base short-tally"),
    ("Without a tally", "if the tally is long enough, a count of # included", "untallied-none"),
    ("Without a tally", "but for #: the count tests # to #, the grade # besides, the price # and #. None gives #.",
     "short-tally bad-n too-many-untallied no-plan-untallied bad-fleet no-plan-untallied short-tally"),
    ("Without a tally", "modulo # to the power #, because no count up to # items reaches that", "tally-base count most-counted"),
    ("Without a tally", "the greatest is that of [# items with every cell open]", "most-counted"),
    ("Without a tally", "The last column adds up to #, and T has # plans.", "untallied-of-t plans-of-t"),
    ("Without a tally", "The last product, #, is the number of ways", "ways-of-t"),
    ("Without a tally", "and # are left.", "untallied-of-t"),
    ("Without a tally", "A tally of # items has # words, which are # MiB", "most-counted words-of-tally mib-of-tally"),
    ("Plan numbers", "the first plan has the number #, and the last one has the count less #.", "first-number last-less"),
    ("Plan numbers", "a number k, any #-bit number,", "number"),
    ("Plan numbers", "at [call k + #]", "call-more"),
    ("Plan numbers", "counts from #, and has it at position k + # if it goes so far.", "first-position position-more"),
    ("Plan numbers", "Both are for n up to # and are lent", "most-numbered"),
    ("Plan numbers", "They test # to # as the count does. Then `rota_plan_at` tests k: # if it is not below the count.", "bad-n short-tally no-such-plan"),
    ("Plan numbers", "without a complete plan every k is #.", "no-such-plan-at-all"),
    ("Plan numbers", "tests the given plan: # if that is no complete plan of this rota, with [# in the bytes from n on]", "no-number unused"),
    ("Plan numbers", "Neither gives #. Refused, with # and # too,", "no-plan too-many-numbered short-tally"),
    ("Plan numbers", "`rota_plan_number` the number #, and", "refused-number"),
    ("Plan numbers", "for each S from # below # to the power n,", "least-set tally-base"),
    ("Plan numbers", "word # is #, and the last of these words is the count", "least-set none-given"),
    ("Plan numbers", "Word # is #: slot # is not open to item #.", "closed-of-t"),
    ("Plan numbers", "Word # is #: slots # and # can go to items # and # either way.", "either-of-t"),
    ("Plan numbers", "For plan # of T slot # of item # is passed over: its word is #, and # is left of k.", "walk-of-t"),
    ("Plan numbers", "Slot # has the word #, so item # gets it; then item # gets slot # and item # gets slot #.", "taken-of-t"),
    ("Plan numbers", "for # # # it is #.", "last-of-t"),
    ("Lister", "the first plan, or #, and never #", "no-plan not-a-plan"),
    ("Lister", ": # if that is no complete plan of this rota, # if none follows", "not-a-plan no-further"),
    ("Lister", "each further call gives #", "no-further"),
    ("Lists of lister calls", "it gives #, or # if the rota has no complete plan", "no-further no-plan"),
    ("Listings", "up to # items its length is the count", "most-counted"),
    ("Lists of lister calls", "tables that give # to #, or another rota that gives #, # or #.", "bad-n not-open not-a-plan no-plan no-further"),
    ("Accepted rota", "none of the refusals # to # fits", "bad-n not-open"),
    ("Accepted rota", "if none of #, #, #, # and # does", "length check layout outside not-open"),
    ("Grade", "they are tried in the order #, #, #, #, #.", "order"),
    ("Grade", "A rota with # plans or more and a brittle item fits rules # and #, and brittle comes first: grade #.", "many fitting-m grade-of-m"),
    ("Grade", "Rules #, #, # and # go by P alone,", "by-p-alone"),
    ("Grade", "only the place of rule # decides anything: it stands after rule # and before the others.", "rule-of-b before-rule"),
    ("Grade", "The rota #, #, #, step by step", "words-of-b"),
    ("Grade", "It has # plans, # # # and # # #, so rule # does not fit.", "count-of-b plans-of-b before-rule"),
    ("Grade", "Slots #, # and # are open to item #.", "open-of-b brittle-of-b"),
    ("Grade", "items # and # need slots # and #, so both plans give item # slot #", "others-of-b needed-of-b brittle-of-b held-of-b"),
    ("Grade", "So rule # fits, and the grade is #.", "rule-of-b grade-of-b"),
    ("Grade", "The rota #, #, #, #, #, #, #, #, step by step", "words-of-m"),
    ("Grade", "It has # plans, so rule # does not fit.", "count-of-m before-rule"),
    ("Grade", "Slots # to # are open to item #.", "open-of-m brittle-of-m"),
    ("Grade", "slot # is open to no other item, so all plans give it to item #:", "held-of-m brittle-of-m"),
    ("Grade", "So rule # fits before rule # is tried, and the grade is #.", "rule-of-m rule-of-many grade-of-m"),
    ("Grade", "Without item # there are # plans too, but no item is brittle: rule # fits, and the grade is #.",
     "brittle-of-m count-of-many rule-of-many grade-of-many"),
    ("Grade", "From # plans on the rotas stand in pairs", "first-pair"),
    ("Grade", "at # plans no other slot is open to it,", "none-beside"),
    ("Grade", "at # one other is,", "one-beside"),
    ("Grade", "at #, # and # all of them.", "all-beside"),
    ("Grade", "Without a brittle item the grade is # at # plans, # at # and # at #; with one it is # at all three.", "pairs-at-many"),
    ("Grade", "Rule # is tried before rule #: the first rota has one plan, so that every item is brittle, and its grade is #.",
     "before-rule rule-of-b first-graded"),
    ("Grade", "Rule # is tried before rule #: the last one has # plans and a brittle item, and its grade is #.", "rule-of-b rule-of-many last-graded"),
    ("Monthly price", "The rota #, #, # has a brittle item, so its grade is #,", "words-of-b grade-of-b"),
    ("Monthly price", "The rota #, #, #, #, #, #, #, # has # plans and a brittle item, so its grade is #.", "words-of-m count-of-m grade-of-m"),
    ("Monthly price", "Let the cell of item # and slot # be a callout: all plans hold it, so the fewest callouts are #.",
     "brittle-of-m held-of-m callouts-of-m"),
    ("Monthly price", "Without item # the grade is #, and the fewest callouts are #:", "brittle-of-m grade-of-many callouts-of-many"),
    ("Monthly price", "T has # plans, so rule # of the grade does not fit;", "plans-of-t before-rule"),
    ("Monthly price", "each item has # usable slots or more, so rule # does not;", "least-usable-of-t rule-of-b"),
    ("Monthly price", "the plans are fewer than #, so rule # does not;", "many rule-of-many"),
    ("Monthly price", "rule # fits, and the grade is #", "rule-of-t grade-of-t"),
    ("Monthly price", "# vehicles stand in the column", "fleet-of-t"),
    ("Monthly price", "The rate of grade # there is #", "grade-of-t rate-of-t"),
    ("Monthly price", "The fewest callouts are #", "callouts-of-t"),
    ("Monthly price", "the price is # cents", "cents-of-t"),
    ("Grade", "has no grade: #.", "no-plan"),
    ("Monthly price", "never gives #.", "over-cap"),
    ("Blocks", "blocks of # bytes, # items in each block but the last", "block most-in-block"),
    ("Reading and writing", "; # if one of them has fewer than n places", "no-room"),
    ("Reading and writing", "; # if it has fewer", "no-room"),
    ("Plans from a file", "at least # bytes (else #)", "plan no-room"),
    ("Plans from a file", "with # no item set and with # no fewest number", "no-plan over-cap"),
    ("Plans from a file", "the buffer's first # bytes", "plan"),
    ("Listing program", "After # plans, if one more follows, the last line is `more #`", "listed listed"),
    ("Listing program", "Every line ends with byte #.", "line-end"),
    ("Order of tests", "# over all blocks before # over any, # over all items before #.", "check layout outside not-open"),
    ("Order of tests", "# comes right after # and # right after #,", "no-room not-open no-such-plan short-tally"),
    ("Zeros", "what # and # bring", "no-plan over-cap"),
    ("Lent things", "With # grade and price leave the tally as it was, with # and # the calls for plan numbers do.", "no-plan no-such-plan no-number"),
)


def least(holds):
    """The least number from 0 that passes the test."""
    found = next((n for n in range(100) if holds(n)), None)
    expect(found is not None, "the library never changes its answer where a bound is looked for")
    return found


def diagonal(n):
    return plain([1 << i if i < 64 else 0 for i in range(n)])


def codes(library, t):
    """The numbers that refused calls give."""
    none = plain([0, 3])
    file = bytearray(library.write_file(t, 512).lent[-1][2])
    wrong_check = bytes(file[:-1]) + b"\0"
    file[13], file[510] = 1, file[510] + 1
    return {
        "no-plan": library.first_plan(none).code,
        "not-a-plan": library.next_plan(t, bytes(64)).code,
        "no-further": library.next_plan(t, LAST).code,
        "over-cap": library.fewest_callouts(t, 0).code,
        "too-many": library.count_plans(diagonal(21), 0).code,
        "short-tally": library.count_plans(t, 0).code,
        "no-room": library.usable_slots(t, 0).code,
        "no-page": library.plan_sheet(t, LAST, 0).code,
        "no-sheet": library.plan_sheet(t, bytes(64), 150).code,
        "no-sheet-at-all": library.plan_sheet(none, bytes([0, 1]) + bytes(62), 150).code,
        "bad-n": library.first_plan(plain([])).code,
        "length": library.read_file(b"", 3, 3).code,
        "check": library.read_file(wrong_check, 3, 3).code,
        "layout": library.read_file(bytes(file), 3, 3).code,
        "outside": library.first_plan(plain([2])).code,
        "not-open": library.first_plan(plain([1], [2])).code,
    }


def price(doc, library, t):
    """T's price for the fleet of the first sum; the rate is what one vehicle more costs. The rule is the one that gives the library's grade."""
    line = doc.indented("Monthly price", "[0-9]+ ×")[0]
    fleet = number(match("# × # .*", line)[1])
    cents, more = (library.monthly_price(t, vehicles, 8).numbers["cents"] for vehicles in (fleet, fleet + 1))
    grade = grade_of(library, t)
    return {"plans-of-t": count_of(library, t), "rule-of-t": with_grade(doc, grade), "grade-of-t": grade, "fleet-of-t": fleet,
            "rate-of-t": more - cents, "callouts-of-t": library.fewest_callouts(t, 64).numbers["callouts"], "cents-of-t": cents}


def untallied(library, t):
    """What the calls without a tally answer, and the numbers that go with Ryser's formula for T and with a tally of the most items."""
    none = plain([0, 3])
    most = least(lambda n: n > 0 and library.count_plans_untallied(diagonal(n)).code != 0) - 1
    ways = 1
    for word in t[1]:
        ways *= len(ones(word))
    words = least(lambda n: library.count_plans(diagonal(1), n).code == 0) ** most
    return {"untallied-none": library.count_plans_untallied(none).numbers["count"], "too-many-untallied": library.count_plans_untallied(diagonal(21)).code,
            "no-plan-untallied": library.grade_untallied(none).code, "bad-fleet": library.monthly_price_untallied(t, 0).code,
            "untallied-of-t": library.count_plans_untallied(t).numbers["count"], "ways-of-t": ways, "words-of-tally": words, "mib-of-tally": words * 8 >> 20}


def positions(library, program, t):
    """How often a fresh lister is called until it gives T's last plan; the first and the last position that the listing program writes."""
    lister, calls = bytes(65), 0
    while lister[1:] != LAST and calls < 10:
        lister, calls = left(library.list_plan(t, lister), "lister"), calls + 1
    lines = program.text(left(library.write_file(t, 512), "file")).split("\n")[1:-2]
    return calls, int(lines[0].split(":")[0]), int(lines[-1].split(":")[0])


def walk(words, opens, k, plan):
    """By the tally, what is passed over for plan k as (slot, item, word, what is left of k), and what is taken as (slot, word, item)."""
    free, passed, taken = (1 << len(opens)) - 1, [], []
    for item, word in enumerate(opens):
        for slot in ones(word & free):
            ways = words[free & ~(1 << slot)]
            if slot == plan[item]:
                taken.append((slot, ways, item))
                break
            k -= ways
            passed.append((slot, item, ways, k))
        free &= ~(1 << plan[item])
    return passed, taken


def numbered(library, program, t):
    """What the calls for plan numbers answer, and how T's last plan is found."""
    n, count, found = t[0], library.count_plans(t, 8).numbers["count"], library.plan_number(t, LAST, 8)
    k, words = found.numbers["number"], words_of(left(found, "tally"))
    calls, first_position, last_position = positions(library, program, t)
    ((passed,), (first, second, third)) = walk(words, t[1], k, LAST)
    closed, either = (next(ones(word) for word in range(1 << n) if words[word] == ways) for ways in (0, 2))
    not_open, both = (sum(1 << slot for slot in slots) for slots in (closed, either))
    return {
        "first-number": library.plan_number(t, library.first_plan(t).plan, 8).numbers["number"],
        "last-less": count - k,
        "call-more": calls - k,
        "first-position": first_position,
        "position-more": last_position - k,
        "most-numbered": least(lambda n: n > 0 and library.plan_at(diagonal(n), 0, 0).code == 5) - 1,
        "no-such-plan": library.plan_at(t, count, 8).code,
        "no-such-plan-at-all": library.plan_at(plain([0, 3]), 0, 4).code,
        "no-number": library.plan_number(t, bytes(64), 8).code,
        "unused": next(byte for byte in range(256) if library.plan_number(t, LAST[:n] + bytes([byte]) + LAST[n + 1:], 8).code == 0),
        "too-many-numbered": library.plan_at(diagonal(21), 0, 0).code,
        "refused-number": library.plan_number(t, bytes(64), 8).numbers["number"],
        "least-set": 0,
        "none-given": words[0],
        "closed-of-t": [not_open, words[not_open], *closed, n - 1],
        "either-of-t": [both, words[both], *either, n - 2, n - 1],
        "walk-of-t": [k, *passed],
        "taken-of-t": [*first, second[2], second[0], third[2], third[0]],
        "last-of-t": [*library.plan_at(t, k, 8).plan[:n], k],
    }


def ones(word):
    return [slot for slot in range(64) if word >> slot & 1]


def count_of(library, rota):
    return library.count_plans(rota, 1 << rota[0]).numbers["count"]


def grade_of(library, rota):
    return library.grade(rota, 1 << rota[0]).numbers["grade"]


def with_grade(doc, grade):
    """The number of the rule that gives the grade."""
    (rule,) = [row.number for row in rules(doc) if row.grade == grade]
    return rule


def usable_in(library, rota):
    """The usable table, and the items with just one usable slot."""
    words = words_of(left(library.usable_slots(rota, rota[0]), "usable"))
    return words, [i for i, word in enumerate(words) if len(ones(word)) == 1]


def brittle(doc, library, t):
    """What the library says of B, of its brittle item and of the others; T's fewest usable slots. The order of the rules is that of the document's table."""
    usable, (item,) = usable_in(library, B)
    others = [i for i in range(3) if i != item]
    first, grade = library.first_plan(B).plan, grade_of(library, B)
    rule, order = with_grade(doc, grade), [row.number for row in rules(doc)]
    return {"words-of-b": B[1], "count-of-b": count_of(library, B), "plans-of-b": first[:3] + library.next_plan(B, first).plan[:3],
            "open-of-b": ones(B[1][item]), "brittle-of-b": item, "others-of-b": others, "needed-of-b": ones(usable[others[0]] | usable[others[1]]),
            "held-of-b": ones(usable[item]), "rule-of-b": rule, "order": order, "before-rule": order[:order.index(rule)], "grade-of-b": grade,
            "by-p-alone": sorted(row.number for row in rules(doc) if row.which is None),
            "least-usable-of-t": min(len(ones(word)) for word in usable_in(library, t)[0])}


def many(library):
    """The least number of plans that has the grade of very many, where no item is brittle."""
    low, high = 2, 5000
    while low < high:
        middle = (low + high) // 2
        low, high = (low, middle) if grade_of(library, with_plans(middle)) == grade_of(library, with_plans(5000)) else (middle + 1, high)
    return low


def of_many(doc, library):
    """What the library says of M, of M with a callout where its brittle item must be, and of M without this item."""
    usable, (item,) = usable_in(library, M)
    rest = plain(M[1][:item])
    expect(item == M[0] - 1 and usable_in(library, rest)[1] == [], "not the last item alone is brittle in", M[1])
    called = plain(M[1], [0] * item + [usable[item]])
    callouts, callouts_of_rest = (library.fewest_callouts(rota, 64).numbers["callouts"] for rota in (called, rest))
    return {"many": many(library), "words-of-m": M[1], "count-of-m": count_of(library, M), "open-of-m": [min(ones(M[1][item])), max(ones(M[1][item]))],
            "brittle-of-m": item, "held-of-m": ones(usable[item]), "rule-of-m": with_grade(doc, grade_of(library, M)), "grade-of-m": grade_of(library, M),
            "fitting-m": sorted(row.number for row in fitting(rules(doc), M)), "callouts-of-m": callouts, "callouts-of-many": callouts_of_rest,
            "count-of-many": count_of(library, rest), "rule-of-many": with_grade(doc, grade_of(library, rest)), "grade-of-many": grade_of(library, rest)}


def pairs(doc, library, t):
    """The graded rotas: the first, the last, and the pairs of which the second has as many plans and one item more, a brittle one. The plans of the pairs by
    how many slots are open to this item beside the one that it gets, and the grades next to the number from which on the plans are many."""
    graded = [named(t, row[0]) for row in doc.table(*GRADED)]
    found = [(one, other) for one, other in zip(graded, graded[1:]) if other[0] == one[0] + 1 and count_of(library, one) == count_of(library, other)]
    beside, near, bound = {}, [], many(library)
    for one, other in found:
        usable, (item,) = usable_in(library, other)
        plans, slots = count_of(library, one), len(ones(other[1][item]))
        expect(usable_in(library, one)[1] == [] and usable[item] == 1 << one[0], "not one item more, for the last slot, in", other[1])
        beside.setdefault("all" if slots == other[0] else slots - 1, []).append(plans)
        if abs(plans - bound) < 2:
            near.append((grade_of(library, one), plans, grade_of(library, other)))
    first = count_of(library, found[0][0])
    expect([rota for rota in graded if count_of(library, rota) >= first] == [rota for pair in found for rota in pair], "rotas in no pair from", first)
    expect(len({grade for _, _, grade in near}) == 1, "with a brittle item not one grade next to", bound, "plans")
    return {"first-pair": first, "none-beside": beside[0], "one-beside": beside[1], "all-beside": beside["all"],
            "pairs-at-many": [number for grade, plans, _ in near for number in (grade, plans)] + [near[0][2]],
            "first-graded": grade_of(library, graded[0]), "last-graded": [count_of(library, graded[-1]), grade_of(library, graded[-1])]}


def figures(library, program, t):
    """Sizes and bounds, by where the answers change."""
    blank = library.first_plan(plain([0])).plan
    expect(len(set(blank)) == 1, "a refused call's plan is not one byte over and over")
    least_n = least(lambda n: library.first_plan(diagonal(n)).code != 1)
    file = library.write_file(t, 1600)
    long = program.text(library.write_file(with_plans(1001), 512).lent[-1][2])
    one, two = (least(lambda size: library.plan_sheet(diagonal(n), bytes(range(n)) + bytes(64 - n), size).code == 0) for n in (1, 2))
    sheet = library.plan_sheet(diagonal(64), bytes(range(64)), 2100).lent[-1][2]
    return {
        "least-n": least_n,
        "most-n": least(lambda n: n > least_n and library.first_plan(diagonal(n)).code == 1) - 1,
        "word": least(lambda n: n > 0 and library.first_plan((n, (0,) * (n - 1) + (2 ** 64 - 1,), (0,) * n)).code == 9),
        "plan": least(lambda n: library.file_first_plan(file.lent[-1][2][:512], bytes(n)).code == 0),
        "blank": blank[0],
        "unheld": library.cell_plan(plain([0, 3]), 1, 0).code,
        "line": two - one,
        "headings": one // (two - one) - 1,
        "two-digits": least(lambda i: sheet[(i + 1) * (two - one)] != ord(" ")),
        "unusable": max(library.usable_slots(plain([0, 3]), 2).lent[-1][2]),
        "no-plans": library.count_plans(plain([0]), 2).numbers["count"],
        "most-counted": least(lambda n: n > 0 and library.count_plans(diagonal(n), 0).code == 5) - 1,
        "tally-base": least(lambda n: library.count_plans(diagonal(1), n).code == 0),
        "block": file.numbers["bytes"],
        "most-in-block": least(lambda n: n > 0 and library.write_file(sample(n), 1600).numbers["bytes"] > 512) - 1,
        "listed": int(long.split()[-1]),
        "line-end": ord(long[-1]),
    }


def numbers_in(doc, title, sentence):
    """The places and the texts of a sentence's numbers, in the whole document."""
    first, last = doc.section(title)[0], doc.section(title)[-1]
    begins = sum(len(line) + 1 for line in doc.lines[:first])
    text = "\n".join(doc.lines[first:last + 1])
    form = re.escape(sentence).replace(r"\#", "(%s)" % NUMBER).replace(r"\ ", r"\s+")
    found = re.findall(form, text)
    expect(len(found) == 1, title, "- not once:", sentence)
    groups = re.search(form, text)
    return [(begins + groups.start(k + 1), begins + groups.end(k + 1)) for k in range(sentence.count("#"))]


def prose(doc, library, program, header, places=None):
    """Each number of each sentence; `places` gets their places in the document. The bits of a cap, of an item, of a slot and of a number are the header's."""
    t, text, compared = rota_t(doc), "\n".join(doc.lines), 0
    with open(header) as page:
        declared = page.read()
    (bits,) = set(re.findall(r"uint(\d+)_t cap\b", declared))
    expect(re.search(r"rota_cell_plan\([^;]*\bsize_t item,\s+size_t slot\);", declared), "a cell's item or slot is no size_t")
    (counted,), (numbered_by,) = re.findall(r"uint(\d+)_t count;", declared), re.findall(r"uint(\d+)_t k\b", declared)
    known = {"cap": int(bits), "size": 8 * ctypes.sizeof(ctypes.c_size_t), "count": int(counted), "number": int(numbered_by), **codes(library, t),
             **price(doc, library, t), **brittle(doc, library, t), **of_many(doc, library), **pairs(doc, library, t), **untallied(library, t),
             **numbered(library, program, t), **figures(library, program, t)}
    for title, sentence, names in SENTENCES:
        found, wanted = numbers_in(doc, title, sentence), []
        for name in names.split():
            wanted += [known[name]] if isinstance(known[name], int) else known[name]
        expect(len(found) == len(wanted), title, "-", sentence, "- the library has so many numbers:", len(wanted))
        for (start, end), value in zip(found, wanted):
            expect(int(text[start:end].replace(",", "")) == value, title, "-", sentence, "- the library has", value)
            compared += 1
            if places is not None:
                places.append((start, end))
    return len(SENTENCES), compared
