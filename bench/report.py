"""Writes what was measured into docs/BENCHMARK.md, between its markers.

    report.py TIMES PEERS STACK DOCUMENT

The first three are the outputs of the three programs. A section of the document stands between `<!-- begin NAME -->` and
`<!-- end NAME -->`.
"""

import re
import sys

STACK_LIMIT = 16 * 1024
UNTALLIED_STACK_LIMIT = 8 * 1024


def parts(path):
    """The text before the first heading, and the text below each heading."""
    with open(path, encoding="utf-8") as file:
        pieces = re.split(r"^### (.*)\n", file.read(), flags=re.MULTILINE)
    return pieces[0].strip(), {pieces[k]: pieces[k + 1].strip() for k in range(1, len(pieces), 2)}


def rows(text):
    """The cells of each row of a table, without its two lines of heading."""
    lines = [line for line in text.splitlines() if line.startswith("|")]
    return [[cell.strip() for cell in line.strip("|").split("|")] for line in lines[2:]]


def numbers(table, column):
    """The numbers of a column; empty cells are left out."""
    return [float(row[column]) for row in table if row[column]]


def span(values, form="{:.2f}"):
    least, most = form.format(min(values)), form.format(max(values))
    return least if least == most else f"{least} to {most}"


def calls(table):
    """The times of the five calls for plans, in a table that has library, Rust and ratio of each."""
    names = ["the first plan takes", "the next", "the usable slots", "the fewest callouts", "the sheet"]
    return ", ".join(f"{name} {span(numbers(table, 1 + 3 * k))}" for k, name in enumerate(names)) + " µs"


def ratios(table, count):
    return [ratio for k in range(count) for ratio in numbers(table, 3 + 3 * k)]


def factors(table, columns):
    """How many times as long as the library the fastest of these columns takes, in each row."""
    return [min(float(row[column]) for column in columns) / float(row[2]) for row in table]


def whole(values):
    return span(values, "{:.0f}")


def result(times, peers, stack):
    plans20, plans64 = rows(times["Plans, n = 20, µs a call"]), rows(times["Plans, n = 64, µs a call"])
    cells = rows(times["A cell's plan, n = 64, µs a call"])
    others = rows(times["A cell that is not open, n = 64, random 6 and a plan, µs a call"])
    counting = rows(times["Counting, n = 20, µs a call"])
    plan, fewest = rows(peers["A plan, µs a call"]), rows(peers["The fewest callouts, µs a call"])
    count, count_untallied = ([row for row in rows(peers[f"The number of plans{form}, µs a call"]) if row[0] == "20"] for form in ("", " without a tally"))
    untallied = rows(times["Counting without a tally, n = 20, µs a call"])
    numbered, walks = rows(times["Plan numbers, n = 20, µs a call"]), rows(times["The walk through a filled tally, in Rust, n = 20, µs a call"])
    most = max(int(row[2]) for row in stack)
    if most >= STACK_LIMIT:
        sys.exit(f"report: a call takes {most} bytes of stack")
    most_untallied = max(int(row[2]) for row in stack if row[0].endswith("_untallied`"))
    if most_untallied >= UNTALLIED_STACK_LIMIT:
        sys.exit(f"report: a call without a tally takes {most_untallied} bytes of stack")
    counts = span([value / 1000 for value in numbers(counting, 1)], "{:.0f}")
    untallied_counts = span([value / 1000 for value in numbers(untallied, 2)], "{:.1f}")
    plan_at, plan_number = (span([value / 1000 for value in numbers(numbered, column)], "{:.1f}") for column in (2, 6))
    return "\n".join([
        f"- At 20 items {calls(plans20)}; the count {counts} ms.",
        f"- Without a tally the count of 20 items takes {untallied_counts} ms, {span(numbers(untallied, 5))} times as long as with one, by the number of "
        f"open slots; {span(numbers(untallied, 4) + numbers(untallied, 8) + numbers(untallied, 11))} times as long as in Rust, grade and price too.",
        f"- A plan of 20 items by its number takes {plan_at} ms, {span(numbers(numbered, 5))} times as long as the counts with and without a tally together; a "
        f"plan's number {plan_number} ms, {span(numbers(numbered, 9))} times as long; both {span(numbers(numbered, 4) + numbers(numbered, 8))} times as long as in "
        f"Rust. The walk through a filled tally takes {span(numbers(walks, 1))} µs to a plan, {span(numbers(walks, 2))} µs to a number; the first one after a fill "
        f"{span(numbers(walks, 3))} µs to the middle plan, {span(numbers(walks, 4))} µs to the last.",
        f"- At 64 items {calls(plans64)}.",
        f"- The first plan that holds an open cell takes {span(numbers(cells, 3))} µs at 64 items, {span(numbers(cells, 6))} times as long "
        f"as the first plan of the same family; a cell that is not open {span(numbers(others, 1))} µs.",
        f"- The same algorithms in Rust: the library takes {span(ratios(plans64, 5) + numbers(cells, 5))} times their time at 64 items, "
        f"{span(ratios(plans20, 5))} at 20, and {span(ratios(counting, 3))} to count.",
        f"- Instead of a plan igraph or LEMON, which answer less, take {whole(factors(plan, [3, 5]))} times as long "
        f"({whole(factors(plan, [4, 6]))} with a graph built before); for the fewest callouts {whole(factors(fewest, [3, 5, 7]))} "
        f"({whole(factors(fewest, [4, 6, 8]))}); PARI for the count {whole(factors(count, [4]))}, "
        f"for the one without a tally {whole(factors(count_untallied, [4]))}.",
        f"- No call took more than {most:,} bytes of stack, none without a tally more than {most_untallied:,}.",
    ])


def replace(document, name, text):
    begin, end = f"<!-- begin {name} -->\n", f"<!-- end {name} -->\n"
    if document.count(begin) != 1 or document.count(end) != 1:
        sys.exit(f"report: the document's markers of {name} are not there once")
    before, rest = document.split(begin)
    return before + begin + text + "\n" + end + rest.split(end)[1]


def tables(headed):
    return "\n\n".join(f"### {heading}\n\n{text}" for heading, text in headed.items())


def main():
    times_path, peers_path, stack_path, path = sys.argv[1:]
    machine, times = parts(times_path)
    versions, peers = parts(peers_path)
    stack = parts(stack_path)[1]["Stack, bytes"]
    limits = times.pop("Limits")
    with open(path, encoding="utf-8") as file:
        document = file.read()
    document = replace(document, "result", result(times, peers, rows(stack)))
    document = replace(document, "machine", f"{machine}.\n{versions}.")
    document = replace(document, "limits", limits)
    document = replace(document, "stack", stack)
    document = replace(document, "peers", tables(peers))
    document = replace(document, "times", tables(times))
    with open(path, "w", encoding="utf-8") as file:
        file.write(document)
    print(f"report: {path} is written")


if __name__ == "__main__":
    main()
