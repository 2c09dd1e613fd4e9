"""calls.txt, read: groups, the words for parameters, records and calls."""
import re
from dataclasses import dataclass
from pathlib import Path

ROOT = Path(__file__).resolve().parents[2]
PAGE = "calls.txt"
NUMBERS = ("size", "u8", "u32", "u64", "bool")
BUFFERS = ("words", "bytes")


class Wrong(Exception):
    """The manifest can't be read, or what is made from it has no place."""


@dataclass(frozen=True)
class Parameter:
    name: str
    type: str   # size, u32, u64, words, bytes or a record
    lent: str   # "", "&" to be read, "&mut" to be written
    group: str  # the group that it comes with, or ""


@dataclass(frozen=True)
class Group:
    name: str
    takes: tuple
    tests: tuple


@dataclass(frozen=True)
class Row:
    """The refusals that a call tests, in order."""
    state: str    # of a lister, else ""
    parts: tuple  # groups, and numbers of its own

    @property
    def own(self):
        return tuple(part for part in self.parts if isinstance(part, int))

    @property
    def numbers(self):
        return tuple(number for part in self.parts for number in ((part,) if isinstance(part, int) else part.tests))


@dataclass(frozen=True)
class Record:
    name: str
    fields: tuple  # of (name, type, how many of it); one that is no array has 0

    @property
    def symbol(self):
        return "rota_" + self.name


@dataclass(frozen=True)
class Call:
    name: str
    answer: str
    part: str
    module: str
    takes: tuple
    rows: tuple
    answers: str
    writes: str
    gives: str

    @property
    def symbol(self):
        return "rota_" + self.name

    @property
    def groups(self):
        return list(dict.fromkeys(parameter.group for parameter in self.takes if parameter.group))

    @property
    def own(self):
        """What it takes besides its groups."""
        return [parameter for parameter in self.takes if not parameter.group]

    @property
    def outputs(self):
        return [parameter for parameter in self.takes if parameter.lent == "&mut"]


@dataclass(frozen=True, eq=False)
class Manifest:
    groups: dict
    words: dict
    records: dict
    calls: dict

    def gets(self, call):
        """The rules' words for what a call gets besides its group, none twice."""
        return ", ".join(dict.fromkeys(self.words[parameter.name] for parameter in call.own))


class Reader:
    """Entries of the page, one after the other. An entry is a line at the margin and the indented lines below it."""

    ENTRIES = {
        "group": r"group (?P<name>[A-Z]+)",
        "parameters": r"parameters",
        "record": r"record (?P<name>\w+)",
        "part": r"part (?P<name>.+)",
        "call": r"call (?P<name>\w+): (?P<answer>\w+)",
    }

    def __init__(self, text):
        self.made, self.subject, self.place = Manifest({}, {}, {}, {}), "", ""
        for place, head, lines in self.entries(text):
            self.place = place
            kind = head.split(" ")[0]
            found = re.fullmatch(self.ENTRIES.get(kind, "(?!)"), head)
            self.expect(found, f"not understood: {head}")
            getattr(self, kind)(lines, **found.groupdict())

    def expect(self, holds, what):
        if not holds:
            raise Wrong(f"{PAGE}:{self.place}: {what}")

    def entries(self, text):
        """The line's number, the line at the margin, and those below it, as (first word, rest)."""
        found = []
        for place, line in enumerate(text.split("\n"), 1):
            self.place = place
            if line.startswith("    "):
                self.expect(found and re.match(r"    \S+ \S", line), f"not understood: {line.strip()}")
                found[-1][2].append(tuple(line.strip().split(" ", 1)))
            elif line and not line.startswith("#"):
                found.append((place, line, []))
        return found

    def new(self, known, name):
        self.expect(name not in known, f"{name} stands twice")
        return name

    def known_type(self, name, *others):
        self.expect(name in NUMBERS or name in self.made.records or name in others, f"no type {name}")
        return name

    def parameter(self, text):
        found = re.fullmatch(r"(\w+): (&mut |&)?(\w+)", text)
        self.expect(found, f"no parameter: {text}")
        name, lent, kind = found[1], (found[2] or "").strip(), found[3]
        self.known_type(kind, *BUFFERS)
        self.expect(bool(lent) or kind not in BUFFERS, f"{name} is lent: &{kind} or &mut {kind}")
        return Parameter(name, kind, lent, "")

    def number(self, text):
        self.expect(re.fullmatch(r"[1-9]\d*", text), f"no refusal and no group: {text}")
        return int(text)

    # ---- the entries

    def group(self, lines, name):
        said = dict(lines)
        self.expect(sorted(said) == ["takes", "tests"] and len(lines) == 2, f"{name} has takes and tests")
        takes = tuple(Parameter(p.name, p.type, p.lent, name) for p in map(self.parameter, said["takes"].split(", ")))
        self.made.groups[self.new(self.made.groups, name)] = Group(name, takes, tuple(map(self.number, said["tests"].split(" "))))

    def parameters(self, lines):
        for name, words in lines:
            self.expect(re.fullmatch(r"\w+:", name), f"no parameter: {name}")
            self.made.words[self.new(self.made.words, name[:-1])] = words

    def record(self, lines, name):
        fields = []
        for field, kind in lines:
            found = re.fullmatch(r"(\w+)|\[(\w+); (\d+)\]", kind)
            self.expect(field.endswith(":") and found, f"no field: {field} {kind}")
            fields.append((field[:-1], self.known_type(found[1] or found[2]), int(found[3] or 0)))
        self.made.records[self.new(self.made.records, name)] = Record(name, tuple(fields))

    def part(self, lines, name):
        self.expect(not lines, f"part {name} has no lines of its own")
        self.subject = name

    def call(self, lines, name, answer):
        said = {key: [text for word, text in lines if word == key] for key in ("in", "takes", "tests", "answers", "writes", "gives")}
        self.expect(sum(map(len, said.values())) == len(lines), f"{name} has a line that is not understood")
        for key, least, most in ("in", 1, 1), ("takes", 1, 1), ("tests", 1, 9), ("answers", 0, 1), ("writes", 0, 1), ("gives", 1, 1):
            self.expect(least <= len(said[key]) <= most, f"{name} has {len(said[key])} lines {key}")
        self.expect(self.subject, f"{name} stands in no part")
        takes = self.takes(said["takes"][0])
        rows = tuple(map(self.row, said["tests"]))
        self.expect((len(rows) == 1) == (rows[0].state == ""), f"{name}: where there are two lines of tests, each has a state")
        for row in rows:
            self.expect(len(set(row.numbers)) == len(row.numbers), f"{name} tests a refusal twice")
        self.expect(self.known_type(answer) == "u32" or answer in self.made.records, f"{name} answers a record or u32")
        for parameter in takes:
            self.expect(parameter.group or parameter.name in self.made.words, f"{name} takes {parameter.name}, which has no words under parameters")
        answers, writes = (said[key][0] if said[key] else "" for key in ("answers", "writes"))
        self.expect(bool(writes) == any(parameter.lent == "&mut" for parameter in takes), f"{name}: writes goes with &mut")
        self.expect(bool(answers) == (answer != "u32"), f"{name}: answers goes with a record")
        room = any(parameter.lent == "&mut" and parameter.type in BUFFERS for parameter in takes)
        self.expect(room == bool({6, 15} & set(rows[0].numbers)), f"{name}: 6 or 15 goes with an output of words or bytes")
        made = Call(name, answer, self.subject, said["in"][0], takes, rows, answers, writes, said["gives"][0])
        self.made.calls[self.new(self.made.calls, name)] = made

    def takes(self, text):
        found = []
        for part in text.split(", "):
            found += self.made.groups[part].takes if part in self.made.groups else [self.parameter(part)]
        self.expect(len({parameter.name for parameter in found}) == len(found), f"a parameter twice: {text}")
        return tuple(found)

    def row(self, text):
        tests, _, state = text.partition(" if ")
        return Row(state, tuple(self.made.groups.get(part) or self.number(part) for part in tests.split(" ")))


def read(text):
    """The manifest of a page's text."""
    made = Reader(text).made
    used = {parameter.name for call in made.calls.values() for parameter in call.own}
    for name in made.words:
        if name not in used:
            raise Wrong(f"{PAGE}: no call takes {name}, which stands under parameters")
    return made

