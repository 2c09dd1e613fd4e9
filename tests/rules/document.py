"""docs/RULES.md as sections, tables and indented lines. What a check has read is marked, so that nothing that looks like an example stays unread."""
import re

NUMBER = r"\d{1,3}(?:,\d{3})+|\d+"


class Wrong(Exception):
    """The document says something that is not so, or that the test does not understand."""


def expect(holds, *what):
    if not holds:
        raise Wrong(" ".join(str(part) for part in what))


def number(text):
    """A number as the document writes it: 33,000 or 512."""
    expect(re.fullmatch(NUMBER, text), "no number:", text)
    return int(text.replace(",", ""))


def numbers(text):
    """Some numbers with a comma and a space between."""
    return [] if text == "none" else [number(part) for part in text.split(", ")]


def span(text):
    """`1 to 49`, or a single number."""
    ends = [number(part) for part in text.split(" to ")]
    expect(len(ends) in (1, 2) and ends[0] <= ends[-1], "no span:", text)
    return ends[0], ends[-1]


def match(pattern, text):
    """The groups of a text that has this form, # standing for a number."""
    found = re.fullmatch(pattern.replace("#", "(" + NUMBER + ")"), text)
    expect(found, "not understood:", text)
    return found.groups()


def anchor(heading):
    """As GitHub makes it."""
    return re.sub(r"[^\w\- ]", "", heading.strip().lower()).replace(" ", "-")


class Document:
    def __init__(self, text):
        self.lines = text.split("\n")
        self.read = set()  # the lines that a check has read
        self.sections = {}
        title = ""
        for place, line in enumerate(self.lines):
            heading = re.match(r"#+ (.*)", line)
            if heading:
                title = heading.group(1)
                expect(title not in self.sections, "a heading twice:", title)
            self.sections.setdefault(title, []).append(place)

    def headings(self, level):
        return [line[level + 1:] for line in self.lines if line.startswith("#" * level + " ")]

    def section(self, title):
        expect(title in self.sections, "no section:", title)
        return self.sections[title]

    def table(self, title, *columns):
        """The rows of the section's table with these columns."""
        return self.headed(title, *columns)[1:]

    def headed(self, title, *columns):
        """The same with the columns' own words before the rows; a column is named by a pattern."""
        places = [place for place in self.section(title) if self.lines[place].startswith("|")]
        rows = [[cell.strip() for cell in self.lines[place].strip("|").split("|")] for place in places]
        heads = [at for at in range(1, len(rows)) if all(re.fullmatch("-+:?", cell) for cell in rows[at])]
        for at, head in enumerate(heads):
            if len(rows[head]) == len(rows[head - 1]) == len(columns) and all(re.fullmatch(*pair) for pair in zip(columns, rows[head - 1])):
                end = heads[at + 1] - 1 if at + 1 < len(heads) else len(rows)
                self.read.update([places[head - 1]] + places[head + 1:end])
                expect(all(len(row) == len(columns) for row in rows[head + 1:end]), "a row of another width in", title)
                return [rows[head - 1]] + rows[head + 1:end]
        raise Wrong("no table of %s in section %s" % (", ".join(columns), title))

    def indented(self, title, pattern=""):
        """The section's indented lines that begin so."""
        places = [place for place in self.section(title) if re.match("    " + pattern, self.lines[place])]
        self.read.update(places)
        return [self.lines[place][4:] for place in places]

    def section_of(self, place):
        return next(title for title, places in self.sections.items() if place in places)

    def unread(self):
        """Indented lines and rows of tables that no check has read; a table's head and rule need none."""
        def rule(place):
            return place < len(self.lines) and re.fullmatch(r"\|(-+:?\|)+", self.lines[place])
        examples = [place for place, line in enumerate(self.lines) if re.match(r"    |\|", line)]
        return [self.lines[place] for place in examples if place not in self.read and not rule(place) and not rule(place + 1)]
