"""The sanitized build over damaged and random files, texts, sheets and arguments.

No signal, no finding and no leak is wanted, and the exact answer wherever it is known.
"""
import json
import random
import re

import cases
from reading import MARK, MOST_BYTES, Unread, rota_in
from reference import MOST_TRIED, EveryCell, Refused
from rotas import T, edited, file_of, small, tidy, written
from usage_lines import LONG, USAGE
from wording import Ask

SOUND = r"(rota: [^\0]*: refused (9: .*; items? .* short by \d+ slots?|11: .*; the fewest are \d+, the cap is \d+|\d+: .*)\n)?"


def is_json(text):
    try:
        json.loads(text)
    except ValueError:
        return False
    return text.count("\n") == 1


class Damage:
    """A source of random numbers, and the questions over given bytes."""

    def __init__(self, command):
        self.command, self.source = command, random.Random(f"{command.part} {command.seed}")

    def question(self, n):
        """Any command, with numbers and slots that are often outside."""
        source, numbers = self.source, (0, 1, 2, n - 1, n, n + 1, 63, 64, 2**32, LONG)
        slots = [min(63, source.randrange(n + 1)) for _ in range(n)]
        return source.choice((
            Ask("first"), Ask("list", most=20), Ask("list", start=source.choice(numbers), most=3), Ask("fewest", cap=source.choice(numbers[:4])),
            Ask("cell", source.choice(numbers), source.choice(numbers)), Ask("at", source.choice(numbers)), Ask("price", source.choice(numbers)),
            Ask("next", *slots), Ask("number", *slots), Ask("sheet", *slots), Ask("sheet"), Ask("sheet", fewest=True), Ask("usable"), Ask("short"),
            Ask("count"), Ask("grade"), Ask("show"), Ask("show"), Ask("check"), Ask("check"), Ask("text"), Ask("file"), Ask("draw")))

    def ask(self, data, times):
        """So many questions over these bytes; the answer is known for small rotas and for what is refused."""
        try:
            n = rota_in(data).n
            known = n <= MOST_TRIED
        except (Refused, Unread):
            n, known = 3, True
        for _ in range(times):
            question, piped = self.question(n), self.source.random() < 0.5
            as_json = self.source.random() < 0.4 and question.command not in ("text", "file", "draw")
            file = "-" if piped else self.command.write(data, "damaged")
            words = question.words(file, *["--json"] * as_json)
            given = self.command.run(words, data if piped else None, build=1)
            if known and (question.command != "draw" or given[2] != 0) or question.command in ("text", "file"):
                self.command.same(words, given, question.wanted("standard input" if piped else file, data, as_json), data)
            else:
                self.sound(words, given, data, as_json)

    def sound(self, words, given, data, as_json=False):
        """An answer, or a refusal in its words; JSON is JSON."""
        out, err, status = given
        fits = re.fullmatch(SOUND, err) and (status == 0 if not err else status == 1) or words[0] == "check" and (err, status) == ("", 1)
        self.command.same(words, given, given if fits and (not as_json or is_json(out)) else ("an answer or a refusal", "", 0), data)

    # ---- files

    def changed_bytes(self):
        """One byte changed, the check as it was or made anew."""
        blocks = cases.bodies(T.opens, T.callouts)
        ones = cases.bodies([1 << i for i in range(64)], [1 << i for i in range(64)])
        for at in [*range(64), 65, 300, 508, 509]:
            value = self.source.choice((0, 1, 2, 3, 7, 8, 63, 64, 65, 128, 255, blocks[0][at] ^ 1))
            self.ask(cases.file_of(cases.changed(blocks, 0, at, value)), 3)
            self.ask(cases.spoiled(cases.file_of(blocks), at), 1)
        for _ in range(40):
            block, at = self.source.randrange(3), self.source.choice((*range(4, 62), self.source.randrange(510)))
            self.ask(cases.file_of(cases.changed(ones, block, at, self.source.randrange(256))), 2)

    def lengths(self):
        whole = file_of(EveryCell(64, 9))
        for length in (0, 1, 3, 4, 5, 6, 13, 14, 15, 61, 62, 510, 511, 513, 514, 1022, 1023, 1025, 1534, 1535):
            self.ask(whole[:length], 2)
        for length in (1024, 1536, 1537, 1552, 2048, 4096, 65536):
            self.ask((file_of(T) * 128)[:length], 2)
            self.ask(whole + bytes(length), 1)

    def random_files(self):
        """A header and any bytes after it, and any words for the items, all checks right."""
        for k in range(60):
            n = self.source.randrange(1, 67)
            count = min(3, 1 + (n > 31) + (n > 62))
            opens = [self.source.getrandbits(min(n, 64) if k % 4 else 64) for _ in range(n)]
            blocks = cases.bodies(opens, [word & self.source.getrandbits(64) for word in opens])[:count]
            if k % 3 == 0:
                blocks = [bytearray(b"ROTA" + bytes(self.source.choices(range(256), k=506))) for _ in range(count)]
            self.ask(cases.file_of(blocks), 2)

    # ---- texts

    def edited_texts(self):
        for k in range(150):
            data = written(self.source, small(self.source))
            for _ in range(k % 4):
                data = edited(self.source, data)
            self.ask(data, 3)

    def random_texts(self):
        for k in range(90):
            n = self.source.choice((1, 2, 3, 4, 5, 6, 7, 12, 21, 63, 64, 65))
            cells = self.source.choice((b".oC", b"oC", b".....o", b".oC#", b".oC \t", bytes(range(256))))
            lines = [bytes(self.source.choices(cells, k=n)) for _ in range(n if k % 5 else n + 1)]
            self.ask(self.source.choice((b"\n", b"\r\n", b"\n\n", b"# x\n")).join(lines), 2)
        for k in range(40):
            length = self.source.choice((1, 5, 50, 600, 1532, 5000))
            self.ask((b"", MARK, b"ROTA", b"Co.\n")[k % 4] + bytes(self.source.choices(range(256), k=length)), 2)

    def long_texts(self):
        """Long lines, comments in comments, and texts at the bound."""
        wide = b"C" * 64 + b"\n"
        for data in (b"o" * 100000, b" " * 100000 + b"o", b"#" * 300000, b"o" + b"#" * 300000, b"\n" * 300000 + b"oo", b"oo\n" * 50000,
                     b"o\r" * 50000, b"#o\n" * 100000 + b"o", wide + b"\n" * 5000 + wide * 63, b"o" + b"\n" * (MOST_BYTES - 1),
                     b"o" + b"\n" * MOST_BYTES, MARK * 1000, b"\xff" * 5000, b"o\0" * 3):
            self.ask(data, 2)

    # ---- sheets and arguments

    def sheets(self):
        file, sheet = self.command.write(tidy(T)), b"IT SL C\n0 0 C\n1 2\n2 1\n"
        for k in range(60):
            data = sheet
            for _ in range(1 + k % 3):
                at, added = self.source.randrange(len(data) + 1), self.source.choice((0, 1, 1, 30))
                data = data[:at] + bytes(self.source.choices(b"0129 \t\r\nCITSL\0\xff-", k=added)) + data[at + self.source.randrange(3):]
            words = [self.source.choice(("next", "number", "sheet")), file, "--sheet", "-"]
            out, err, status = self.command.run(words, data, build=1)
            fits = re.fullmatch(r"rota: (standard input: line \d+: [^\n]*|rota-\d+: refused \d+: .*)\n", err) if status else err == ""
            self.command.same(words, (bool(fits), bool(out)), (True, status == 0), data)

    def arguments(self):
        """Any words: nothing is found, and the status is one of four."""
        file = self.command.write(tidy(T))
        words = [file, file, file, "-", "missing", "0", "1", "2", "/", "--", "--json", "--sheet", "--from", "--most", "--cap", "--fewest",
                 "--sheet=-", f"--sheet={file}", "--cap=1", "--from=1", "--most=2", "--help", "--x", "", "-1", "64", str(LONG),
                 str(LONG + 1), "=", "--=", "%s%n", "\xe9", "x" * 3000]
        for k in range(200):
            name = self.source.choice([*USAGE, *USAGE, "help", "--help", "--version", "", "x"])
            chosen = self.source.choices(words, k=self.source.choice((0, 1, 2, 3, 4, 6, 70 if k % 10 == 0 else 5)))
            if name in ("open", "close", "callout"):
                self.command.write(tidy(T), file)
            out, err, status = self.command.run([name, *chosen], tidy(T), build=1)
            fits = status in (0, 1, 2, 3) and "Sanitizer" not in err and "runtime error" not in err and (status == 0 or err != "" or name == "check")
            self.command.same([name, *chosen], (out, err, status), (out, err, status) if fits else ("anything sound", "", 0))


def try_files(command):
    damage = Damage(command)
    damage.changed_bytes()
    damage.lengths()
    damage.random_files()
    damage.sheets()


def try_texts(command):
    damage = Damage(command)
    damage.edited_texts()
    damage.random_texts()
    damage.long_texts()
    damage.arguments()
