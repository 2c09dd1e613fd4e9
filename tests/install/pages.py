"""The man pages as they are shown: beside the header, the rules and the command, and their examples run."""
import json
import re
import shutil

from common import calls, declared, header, printed, root, run, same, squeezed, stop
from linking import shared


class Page:
    """A page in lines of no end, so that nothing is broken or hyphenated. Paragraphs and tags begin with one space, the text of a tag with two."""

    def __init__(self, prefix, section):
        self.name = f"rota({section})"
        path = f"{prefix}/share/man/man{section}/rota.{section}"
        same(f"{self.name}, what groff says", printed(f"groff -man -Tutf8 -ww -z '{path}'", root), "")
        self.text = printed(f"groff -man -Tutf8 -P-cbou -rHY=0 -rLL=4000n -rIN=1n '{path}'", root)

    def section(self, title):
        found = re.findall(rf"^{re.escape(title)}\n((?: .*\n|\n)*)", self.text, re.M)
        if len(found) != 1:
            stop(f"{self.name} has {len(found)} sections {title}")
        return found[0]

    def tagged(self, title):
        """{tag: text} of a section."""
        return dict(re.findall(r"^ (\S.*)\n  (\S.*)$", self.section(title), re.M))

    def shown(self):
        """The lines of the examples, which are indented."""
        return "".join(line[5:] + "\n" for line in self.section("EXAMPLES").splitlines() if line.startswith("     ") or not line)


# ---- rota(3) and rota(5) beside the header and the rules

def codes():
    """Each number of the header with its name and its text."""
    names = re.findall(r"^    (ROTA_\w+) = (\d+)", header.split("enum rota_code {")[1].split("};")[0], re.M)
    texts = re.findall(r'^        "(.*)",?$', header.split("texts[] = {")[1].split("};")[0], re.M)
    same("the header's numbers", [int(number) for _, number in names], list(range(len(texts))))
    return {number: f"{name}: {text}" for (name, number), text in zip(names, texts)}


def tests_in_rules():
    """The tests of each call by docs/RULES.md, in its order; those of the lister in both its states."""
    found = {}
    rules = (root / "docs/RULES.md").read_text(encoding="utf-8")
    for call, state, tests in re.findall(r"^\| `(rota_\w+)`(?:, (\w+))? \| ([\d, ]+) \|$", rules, re.M):
        found.setdefault(call, []).append(tests.replace(",", "") + (f" if {state}" if state else ""))
    return {call: f"Tests {', '.join(tests)}." for call, tests in found.items()}


def library(page):
    prototypes = declared(page.section("SYNOPSIS"))
    same("rota(3), prototypes that are not the header's", sorted(set(prototypes) ^ set(declared(header))), [])
    same("rota(3), number of prototypes", len(prototypes), len(calls))
    text = re.search(r"^static inline [^{]*?\)", header, re.M)[0]
    same("rota(3), rota_code_text", squeezed(text) + ";" in squeezed(page.section("SYNOPSIS")), True)
    described = page.tagged("DESCRIPTION")
    same("rota(3), tests in order", {call: re.search(r"Tests [^.]*\.$|$", described.get(call, ""))[0] for call in calls}, tests_in_rules())
    structs = re.findall(r"typedef struct \{(.*?)\} (\w+);", header, re.S)
    records = {name: ", ".join(re.findall(r"(\w+)(?:\[\d+\])?;", fields)) for fields, name in structs}
    records["rota_plan"] += ": byte i is item i's slot; bytes from n on are 0."
    same("rota(3), records", {name: described.get(name) for name in records}, records)
    sizes = re.findall(r"^    (ROTA_\w+) = (\d+)", header.split("enum {")[1].split("};")[0], re.M)
    same("rota(3), sizes", re.findall(r"^ (ROTA_\w+) (\d+)$", page.section("DESCRIPTION"), re.M), sizes)
    same("rota(3), numbers", page.tagged("RETURN VALUE"), codes())


def bytes_of_block(page):
    """rota(5)'s list of a block's bytes is the table of docs/RULES.md."""
    table = (root / "docs/RULES.md").read_text(encoding="utf-8").split("| bytes | hold |\n")[1].split("\n\n")[0]
    same("rota(5), bytes of a block", re.findall(r"^ (\d+(?: to \d+)?) +(\S.*)$", page.section("ROTA FILE"), re.M),
         re.findall(r"^\| (\d.*?) \| (.*) \|$", table, re.M))


def example(page, prefix, folder):
    """rota(3)'s program is built and writes the plans that stand before it."""
    plans = re.search(r"writes (.*) and (.*), a line each", page.section("EXAMPLES"))
    shared(prefix, folder, page.shown(), "\n".join([*plans[1].split(", "), plans[2]]) + "\n")


# ---- rota(1) beside the command

def commands(page, prefix):
    """The commands of rota --help, in its order, each with its usage line."""
    rota = f"'{prefix}/bin/rota'"
    names = re.findall(r"^  ([a-z]+) +\S", printed(f"{rota} --help", root).split("Commands:\n")[1].split("\n\n")[0], re.M)
    same("rota(1), commands", re.findall(r"^ rota ([a-z]+) .*$", page.section("COMMANDS"), re.M), names)
    usage = [printed(f"{rota} {name} --help", root).splitlines()[0] for name in names]
    same("rota(1), usage lines", [f"usage: {line}" for line in re.findall(r"^ (rota [a-z]+ .*)$", page.section("COMMANDS"), re.M)], usage)
    general = printed(f"{rota} --help", root).splitlines()[0]
    same("rota(1), synopsis", "usage: " + page.section("SYNOPSIS").splitlines()[0].strip(), general)
    return names


# What a command is given whose answer in JSON is looked at, if it is not FILE alone.
CALLS = {
    "next": "FILE 0 1 2", "cell": "FILE 1 2", "at": "FILE 1", "number": "FILE 0 1 2", "price": "FILE 100",
    "open": "COPY 0 2", "close": "COPY 0 2", "callout": "COPY 0 2", "check": "SHORT",
}


def keys(page, prefix, names, folder):
    """The keys of every answer in JSON, in order, and of what stands in it."""
    told = {}
    for tags, text in page.tagged("JSON").items():
        told.update((tag, text) for tag in ([tags] if tags == "any refusal" else tags.split(", ")))
    refusal = told.pop("any refusal")
    without = [name for name in names if run(f"'{prefix}/bin/rota' {name} --help | grep -q -e --json", root)[1] != 0]
    same("rota(1), commands with JSON", sorted(told), sorted(set(names) - set(without)))
    files = {"FILE": root / "examples/three-items.rota", "SHORT": root / "examples/short-of-slots.rota", "COPY": folder / "copy.rota"}
    shutil.copy(files["FILE"], files["COPY"])

    def answer(name, words):
        line = re.sub("[A-Z]{4,}", lambda word: f"'{files[word[0]]}'", words)
        text = run(f"'{prefix}/bin/rota' {name} {line} --json 2>/dev/null", folder)[0]
        try:
            return json.loads(text)
        except ValueError:
            return stop(f"rota {name} --json: {text}")

    for name, text in told.items():
        given = answer(name, CALLS.get(name, "FILE"))
        outer, _, inner = text.partition("; ")
        same(f"rota(1), keys of {name}", ", ".join(given), outer)
        parts = [part for value in given.values() for part in (value if isinstance(value, list) else [value]) if isinstance(part, dict)]
        same(f"rota(1), keys within {name}", {", ".join(part) for part in parts}, {inner.split(": ")[1]} if ": " in inner else set())
    same("rota(1), keys of a refusal", ", ".join(answer("first", "SHORT")), refusal)


# ---- examples

def examples(page, prefix, folder):
    """Runs each command of a page in a folder with the samples, and returns how many.

    A file that is shown before a command made it is made of what is shown.
    """
    shutil.copytree(root / "examples", folder / "examples", ignore=shutil.ignore_patterns("*.c"))
    blocks = re.findall(r"^\$ .*\n(?:(?!\$ ).*\n)*", page.shown(), re.M)
    for block in blocks:
        command, _, shown = block[2:].partition("\n")
        shown = shown.rstrip("\n") + "\n" if shown.strip() else ""
        new = re.fullmatch(r"cat (\w+\.txt)", command)
        if new and not (folder / new[1]).exists():
            (folder / new[1]).write_text(shown, encoding="ascii")
        same(f"{page.name}: {command}", run(command, folder, PATH=f"{prefix}/bin:/usr/bin:/bin"), (shown, 0))
    return len(blocks)
