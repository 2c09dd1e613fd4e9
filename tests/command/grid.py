"""The grid that `rota show` prints: looks of the cells, headings, legend, figures and colours."""

COLOURS = {".": "2", "-": "31", "c": "31", "o": "32", "C": "33", "*": "1;7;32", "@": "1;7;33", "!": "1;31"}

LEGEND = [
    ("         in no plan   usable   first plan", ""),
    ("open         {}          {}          {}", "-o*"),
    ("callout      {}          {}          {}", "cC@"),
    ("closed       {}", "."),
]
LABELS = "plans", "fewest callouts", "grade"


def looks(rota):
    """A character for each cell."""
    def look(i, j):
        if not rota.opens[i] >> j & 1:
            return "."
        place = 2 if rota.first and rota.first[i] == j else rota.usable[i] >> j & 1
        return ("-o*", "cC@")[rota.callouts[i] >> j & 1][place]
    return [[look(i, j) for j in range(rota.n)] for i in range(rota.n)]


def plain(look):
    return look


def coloured(look):
    return f"\x1b[{COLOURS[look]}m{look}\x1b[0m"


def grid_of(rows, items, paint=plain):
    """Headings, a line for each item, and the legend; items are the short ones."""
    n = len(rows)
    apart = " " if n <= 32 else ""
    lines = ["      slot"]
    if n > 10:
        lines.append("      " + apart.join(str(j // 10) if j >= 10 else " " for j in range(n)))
    lines.append("item  " + apart.join(str(j % 10) for j in range(n)))
    for i, row in enumerate(rows):
        lines.append((paint("!") if i in items else " ") + f"{i:>3}  " + apart.join(map(paint, row)))
    lines += [""] + [words.format(*map(paint, shown)) for words, shown in LEGEND]
    return "".join(line + "\n" for line in lines)


def figures(values):
    return "".join(f"{label:<15}  {value}\n" for label, value in zip(LABELS, values))
