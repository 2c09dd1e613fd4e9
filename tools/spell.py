#!/usr/bin/env python3
"""Brings the names that this repository declares to the spelling of today's Rattle: words in snake case, with a dash only where it joins
two names. It was run once, after the toolchain's own script, and is kept so that the renaming can be done again and compared.

usage: tools/spell.py        at the top of the repository

Types, modules, functions of src/, strings and outputs keep their names. Two names never fall together: where the new spelling is taken,
a dash stays. A new name that a parameter or a local of a source file would hide is shown.
"""
import re
import sys
from pathlib import Path

IDENT = re.compile(r"(?<![\w'₀-₉-])[^\W\d][\w'₀-₉]*(?:-[\w'₀-₉]+)*")
# std's words for functions and operators, which a dash joins in the names of laws
JOINED = set("""append drop length map replicate reverse set take get_or ones sum total min max suc zero add sub mul div mod rem pow
le lt eq ne leb ltb eqb and or not shl shr mem cond filter concat any all below nil cons""".split())
DECLARATION = re.compile(r"^\s*(?:pub |abbrev |unfoldable |pattern )*([^\W\d][\w'₀-₉]*(?:-[\w'₀-₉]+)*)(?: \{[^{}]*\})? :")
FIELDS = re.compile(r"^\s*(?:pub )?((?:[^\W\d][\w'₀-₉-]* )+)(?:\{[^{}]*\} )?:")


def snake(name):
    if re.match(r"_?[a-z]", name):
        name = re.sub(r"(?<=[a-z0-9])([A-Z])(?=[a-z]|$|[-_'\d])", lambda m: "_" + m[1].lower(), name)
    return name


def main():
    root = Path(".")
    antt = sorted(p for p in root.glob("crates/*/*/**/*.antt") if "out" not in p.parts)
    antt += sorted(p for p in root.glob("crates/*/specs/*.antt") if p not in antt)
    antt += sorted(p for p in root.glob("crates/*/proofs/*.antt") if p not in antt)
    antt = sorted(set(antt))
    sources = sorted(root.glob("crates/*/src/**/*.rt"))
    shared = [p for p in antt if p.name != "Proof.antt"]
    texts = {p: p.read_text(encoding="utf-8") for p in antt}

    words, declared, functions = set(), set(), set()
    for p, text in texts.items():
        for line in text.split("\n"):
            code = re.sub(r"--(\s.*)?$", "", line)
            words.update(IDENT.findall(code))
            if p in shared:
                m = DECLARATION.match(code)
                if m:
                    declared.add(m[1])
                    if "specs" in p.parts and m[1][:1].islower() and "-" not in m[1]:
                        functions.add(snake(m[1]))
    # the functions of src/, whose names clauses and proofs use beside the words
    rust = {m for p in sources for m in re.findall(r"\bfn (\w+)", p.read_text(encoding="utf-8"))}
    joined = JOINED | functions

    table = {}
    taken = {snake(w) for w in words} | words | rust
    for name in sorted(declared):
        if "-" not in name:
            if snake(name) != name:
                table[name] = snake(name)
            continue
        parts = snake(name).split("-")
        new = parts[0]
        for before, after in zip(parts, parts[1:]):
            ends = before in joined or any(new.endswith("_" + f) or new == f for f in joined if f.endswith(before))
            starts = after in joined
            new += ("-" if ends and starts else "_") + after
        flat = new
        if flat != name and (flat in taken or flat.replace("-", "_") in taken and flat == flat.replace("-", "_")):
            flat = snake(name)
        if flat != name:
            table[name] = flat
            taken.add(flat)
    olds = {}
    for old, new in table.items():
        olds.setdefault(new, []).append(old)
    for new, old in sorted(olds.items()):
        if len(old) > 1:
            sys.exit(f"these fall together: {', '.join(old)} as {new}")

    def turned(text):
        return IDENT.sub(lambda m: table.get(m[0], m[0]), text)

    def spans(comment):
        comment = re.sub(r"`[^`]*`", lambda m: turned(m[0]), comment)
        return IDENT.sub(lambda m: table[m[0]] if "-" not in m[0] and m[0] in table else m[0], comment)

    # what other names of specs/ are declared nowhere else: aliases of imports and variables
    kept = {new for new in table.values()} | {n for n in declared if n not in table}

    def local(m):
        name = m[0]
        return name if name in kept else snake(name).replace("-", "_")

    for p, text in texts.items():
        lines = []
        for line in text.split("\n"):
            m = re.search(r"(?:^|(?<=\s))--(?:\s.*)?$", line)
            code, comment = (line[:m.start()], line[m.start():]) if m else (line, "")
            code = turned(code)
            if "specs" in p.parts:
                code = IDENT.sub(local, code)
            lines.append(code + spans(comment))
        text = "\n".join(lines)
        if p.name == "Proof.antt":
            f = p.parent.name
            old = f.replace("_", "-") + "-spec"
            text = re.sub(rf"(?<![\w'-]){re.escape(old)}(?![\w'-])", f + "_spec", text)
        p.write_text(text, encoding="utf-8")
    camel = {o: n for o, n in table.items() if "-" not in o}
    for p in sources:
        text = p.read_text(encoding="utf-8")
        new = re.sub(r"[^\W\d]\w*", lambda m: camel.get(m[0], m[0]), text)
        # a dashed name stands in clauses alone
        new = re.sub(r"(?s)(ghost use [^;]*;|\b(?:requires|ensures)\*? ?\w* \{.*?\}\n)", lambda m: turned(m[0]), new)
        p.write_text(new, encoding="utf-8")
        hidden = sorted({n for n in camel.values() if re.search(rf"\blet (?:mut )?{n}\b|\b{n}: [&\w\[]", new)})
        if hidden:
            print(f"look: {p}: a local or a parameter is called {', '.join(hidden)}")
    spelled = {w for p in antt for w in IDENT.findall(p.read_text(encoding="utf-8"))}
    for p in sorted(root.glob("crates/*/must-fail/*.edit")):
        lines = []
        for line in p.read_text(encoding="utf-8").split("\n"):
            if line.startswith(("old:", "new:")):
                # the toolchain's script turns no edit: what it turned in the files is turned here
                line = IDENT.sub(lambda m: snake(m[0]) if snake(m[0]) in spelled else m[0], turned(line)).replace("Rattle·", "Rattle.")
            lines.append(line)
        p.write_text("\n".join(lines), encoding="utf-8")
    print(f"turned {len(table)} names")


main()
