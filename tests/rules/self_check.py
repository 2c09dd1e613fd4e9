"""Shows that the test can fail: each line that it reads is changed in a copy of the document, one number or column of a sheet at a time, and the copy must be
refused. So must rule 3 of the grade with open slots for usable ones, the grade's rules in another order, and Ryser's formula with another sign.

A change of what an example asks may give an example that is true as well; so may none of an answer or of a rule.
"""
import re

import pricing
import prose
from document import NUMBER, Document, Wrong

# The columns of a table that ask; those behind them answer. In all other tables, and in a row that begins with a number, every number is a rule's.
ASKING = {"Worked rotas": 2, "Lists of lister calls": 1, "Listing program": 1, "Grade": 1}
# How many changes of what is asked leave the example true. Another number fails.
STILL_TRUE = 160


def asked(title, line):
    """The place where the asking part of a line ends."""
    if "→" in line:
        return line.index("→")
    columns = ASKING.get(title, 0) if line.startswith("|") and not re.match(r"\| \d+ \|", line) else 0
    return [found.start() for found in re.finditer(r"\|", line)][columns] if columns else 0


def changes(line):
    """The line with one number changed, for each of its numbers, and the number's place; in the dump bytes and places too, which are hexadecimal, and in a
    sheet each column. In rule 3 of the grade the kind of slot, in Ryser's formula each sign."""
    if "just one usable slot" in line:
        yield line.index("usable"), line.replace("usable", "open")
    for found in re.finditer(r"(?<=\| )[+−](?= \|)|(?<=\| )−(?=\d)", line):
        yield found.start(), line[:found.start()] + ("+" if found.group() == "−" else "−") + line[found.end():]
    for at in range(4, len(line)) if re.match(r"    .*\$$", line) else ():
        yield at, line[:at] + ("C" if line[at] == " " else " ") + line[at + 1:]
    dump = re.match("    [0-9a-f]{3}  ", line)
    end = line.index("   ", 4) if dump else 0
    for found in re.finditer("[0-9a-f]{2,3}", line[:end]):
        yield found.start(), line[:found.end() - 1] + "123456789abcdef0"[int(found.group()[-1], 16)] + line[found.end():]
    for found in re.finditer(NUMBER, line[end:]):
        value = int(found.group().replace(",", "")) + 1
        text = "{:,}".format(value) if "," in found.group() else str(value)
        yield end + found.start(), line[:end + found.start()] + text + line[end + found.end():]


def refused(rules, examples, lines, place, instead, read):
    """Whether a check that reads this line refuses the document with other lines instead."""
    copy = "\n".join(lines[:place] + instead + lines[place + 1:])
    for name, check in rules.checks().items():
        if place in read[name]:
            try:
                if check(Document(copy))[0] != examples[name]:
                    return True
            except Exception:  # whatever goes wrong, the test has failed
                return True
    return False


def fails(check, *given):
    """Whether a check refuses what it is given."""
    try:
        check(*given)
    except Wrong:
        return True
    return False


def swapped(row):
    """A row of numbers with two neighbours in each other's place, for each two."""
    head, numbers = row.rstrip("| ").rsplit(" | ", 1)
    parts = numbers.split(", ")
    for k in range(len(parts) - 1):
        yield "%s | %s |" % (head, ", ".join(parts[:k] + [parts[k + 1], parts[k]] + parts[k + 2:]))


def exchanged(rules, examples, lines, document, read):
    """Two neighbours among the grade's rules in each other's place. Where one of them is that of the brittle item, a rota that fits both gets another grade.
    The others go by P alone, and no rota fits two of them: the grades stay, and only the sentence with the order refuses. Two rules with each other's number
    have the same grades too, and the graded rotas refuse them."""
    rows, tried = [place for place in document.section("Grade") if re.match(r"\| \d+ \| ", lines[place])], 0
    for one, other in zip(rows, rows[1:]):
        brittle = any("some item" in lines[place] for place in (one, other))
        numbers, rests = zip(*(re.match(r"(\| \d+ \|)(.*)", lines[place]).groups() for place in (one, other)))
        for instead, by_grades in (((lines[other], lines[one]), brittle), ((numbers[1] + rests[0], numbers[0] + rests[1]), False)):
            copy = lines[:one] + list(instead) + lines[other + 1:]
            if fails(pricing.grades, Document("\n".join(copy)), rules.library) != by_grades:
                raise Wrong("the grades %s: %s / %s" % ("do not refuse" if by_grades else "refuse", *instead))
            if not refused(rules, examples, copy, one, [copy[one]], read):
                raise Wrong("the test does not refuse: %s / %s" % instead)
            tried += 1
    return tried


def sentences(rules, text):
    """Every number of the sentences that are compared."""
    places = []
    prose.prose(Document(text), rules.library, rules.program, rules.header, places)
    for start, end in places:
        copy = text[:start] + str(int(text[start:end].replace(",", "")) + 1) + text[end:]
        if not fails(prose.prose, Document(copy), rules.library, rules.program, rules.header):
            raise Wrong("the test does not refuse: " + copy[start - 40:end + 40])
    return len(places)


def self_check(rules, examples, text, read):
    """Every line that a check has read: the line left out, a word more, and each number and each column of a sheet changed, but in the table of words,
    which has names; in the order of tests any two neighbours swapped too."""
    lines, document, tried, true = text.split("\n"), Document(text), 0, 0
    for place in sorted(set().union(*read.values())):
        line = lines[place]
        for instead in ([], [line + " else"]):
            if not refused(rules, examples, lines, place, instead, read):
                raise Wrong("the test does not refuse that this line is left out or longer: " + line)
        title = document.section_of(place)
        for other in swapped(line) if title == "Order of tests" and not line.startswith("| call") else ():
            tried += 1
            if not refused(rules, examples, lines, place, [other], read):
                raise Wrong("the test does not refuse: " + other)
        for at, changed in changes(line) if title != "Words" else ():
            tried += 1
            if not refused(rules, examples, lines, place, [changed], read):
                if at >= asked(title, line):
                    raise Wrong("the test does not refuse: " + changed)
                true += 1
    tried += exchanged(rules, examples, lines, document, read) + sentences(rules, text)
    for more in (["", "    T: nothing that is known"], ["| a |", "|---|", "| 1 |"]):
        if not fails(rules.run, "\n".join(lines + more)):
            raise Wrong("the test does not refuse what it does not read: " + more[-1])
    if true != STILL_TRUE:
        raise Wrong("%d changes of what is asked leave an example true, and there should be %d" % (true, STILL_TRUE))
    print("rules: self-check: %d changes of a number, a sign, a column, an order or rule 3's slots; %d in what is asked leave the example true, "
          "all others are refused" % (tried, true))
