"""The rota file as the document's tables lay it out, T's dump, and the listing program."""
import re
import subprocess

from document import expect, match, number, span
from examples import agrees
from library import FILL, left, words_of
from rotas import ONE_OPEN, plain, rota_t, with_plans

HOLDS = {
    "mark": '"([A-Z]+)"',
    "edition": "the edition, #",
    "n": "n, the same in every block",
    "block": "the block's number, from #",
    "items": "the items in the block: #, or in the last block what is left",
    "zeros": "#",
    "words": "# bytes for each item: open word, then callout word, low byte first; unused places are #",
    "check": "the check: the sum of bytes # to # modulo #, low byte first",
}


class Layout:
    """The two tables: which blocks a rota has, and what stands where in a block."""

    def __init__(self, doc):
        rows = doc.table("Bytes of a block", "bytes", "hold")
        expect(len(rows) == len(HOLDS), "a block has other rows")
        self.at, self.says = {}, {}
        follows = 0
        for (name, form), (bytes_, holds) in zip(HOLDS.items(), rows):
            self.at[name] = span(bytes_)
            self.says[name] = [part if name == "mark" else number(part) for part in match(form, holds)]
            expect(self.at[name][0] == follows, "bytes", bytes_, "do not follow the row before")
            follows = self.at[name][1] + 1
        self.size = follows
        (self.per_block,) = self.says["items"]
        self.files = []  # least n, most n, blocks, bytes
        for items, blocks, size in doc.table("Blocks", "items", "blocks", "bytes"):
            self.files.append(span(items) + (number(blocks), number(size)))
            expect(number(size) == self.size * number(blocks), "blocks of", items)

    def blocks_for(self, n):
        return next((blocks for least, most, blocks, _ in self.files if least <= n <= most), None)

    def check(self, body):
        first, last, modulo = self.says["check"]
        return bytes(body[:self.at["check"][0]]) + (sum(body[first:last + 1]) % modulo).to_bytes(2, "little")

    def body(self, n, block, items):
        """A block without its check, from the (open, callout) words in it."""
        each, unused = self.says["words"]
        body = bytearray([unused]) * self.at["check"][0]
        for name, value in (("mark", self.says["mark"][0].encode()), ("edition", bytes(self.says["edition"])), ("n", bytes([n])),
                            ("block", bytes([self.says["block"][0] + block])), ("items", bytes([len(items)]))):
            first, last = self.at[name]
            expect(last - first + 1 == len(value), "the bytes of", name)
            body[first:last + 1] = value
        first, last = self.at["zeros"]
        body[first:last + 1] = bytes(self.says["zeros"]) * (last - first + 1)
        for i, words in enumerate(items):
            at = self.at["words"][0] + each * i
            body[at:at + each] = b"".join(word.to_bytes(each // 2, "little") for word in words)
        return body

    def bodies(self, rota):
        n, opens, callouts = rota
        items = list(zip(opens, callouts))
        return [self.body(n, b, items[self.per_block * b:self.per_block * (b + 1)]) for b in range(self.blocks_for(n))]

    def file_of(self, rota):
        """The file of a rota; None where it has none."""
        n, opens, callouts = rota
        if self.blocks_for(n) is None or any(word >> n for word in opens) or any(c & ~w for w, c in zip(opens, callouts)):
            return None
        return b"".join(self.check(body) for body in self.bodies(rota))


def sample(n):
    """A rota of n items, with many different bytes in its words."""
    low = (1 << n) - 1
    opens = [(0x9E3779B97F4A7C15 * (i + 1) | 1 << i) & low for i in range(n)]
    return plain(opens, [word & 0xC2B2AE3D27D4EB4F * (i + 3) for i, word in enumerate(opens)])


def written_and_read(layout, library, rota):
    """The file of a rota is what the tables say; it needs that much room; and it is read back, into room for n words."""
    n, data = rota[0], layout.file_of(rota)
    expect(data is not None, "no blocks for", n, "items")
    answer = library.write_file(rota, len(data) + 9)
    agrees(answer, 0, "a file of %d items" % n, bytes=len(data))
    expect(left(answer, "file") == data + FILL * 9, "the library writes another file of", n, "items")
    agrees(library.write_file(rota, len(data) - 1), 15, "a file of %d items" % n)
    answer = library.read_file(data, n, n + 1)
    agrees(answer, 0, "a file of %d items" % n, n=n)
    opens, callouts = words_of(left(answer, "open words")), words_of(left(answer, "callout words"))
    expect((opens, callouts[:-1]) == rota[1:] and left(answer, "callout words").endswith(FILL * 8), "the library reads other words of", n, "items")
    agrees(library.read_file(data, n, n - 1), 15, "room for the callout words")
    return 4


def bytes_of_block(doc, library):
    """Files of all sizes around the blocks' bounds; each byte of T's file changed, and each of header and unused places with the check made anew."""
    layout, compared = Layout(doc), 0
    for least, most, _, _ in layout.files:
        for n in sorted({least, least + 1, most - 1, most} & set(range(1, 65))):
            compared += written_and_read(layout, library, sample(n))
    compared += written_and_read(layout, library, plain([2 ** 64 - 1] * 64, [2 ** 64 - 1] * 64))
    t = rota_t(doc)
    (body,) = layout.bodies(t)
    words = range(layout.at["words"][0], layout.at["words"][0] + layout.says["words"][0] * t[0])
    for place in range(len(body)):
        other = bytearray(body)
        other[place] ^= 1
        agrees(library.read_file(bytes(other) + layout.check(body)[-2:], 64, 64), 13, "byte %d" % place)
        compared += 1
        if place not in words:
            agrees(library.read_file(layout.check(other), 64, 64), 14, "byte %d and the check" % place)
            compared += 1
    return len(HOLDS) + len(layout.files), compared


# ---- T's file, line by line

def explained(layout, data, line, text):
    """What the words behind a line of the dump say of it."""
    forms = {"edition #": "edition", "n = #": "n", "block #": "block", "# items": "items", "check #": "check"}
    for part in re.split("[,;:] ", text):
        item = re.fullmatch("item ([0-9]+)'s (open|callout) word ([0-9]+)", part)
        byte = re.fullmatch("byte ([0-9]+) is ([0-9]+)", part)
        if item:
            at = layout.at["words"][0] + layout.says["words"][0] * int(item.group(1)) + 8 * (item.group(2) == "callout")
            holds = int.from_bytes(data[at:at + 8], "little") == int(item.group(3))
        elif byte:
            at = int(byte.group(1))
            holds = data[at] == int(byte.group(2))
        elif part == data[:4].decode():
            at, holds = 0, True
        else:
            form = re.sub("[0-9]+", "#", part)
            expect(form in forms, "not understood:", part)
            at, last = layout.at[forms[form]]
            holds = int.from_bytes(data[at:last + 1], "little") == int(re.search("[0-9]+", part).group())
        expect(holds and line <= at < line + 16, "T's file:", part)


def dump(doc, library):
    """T's file as its lines have it, in both directions."""
    lines, data = doc.indented("Bytes of a block", "[0-9a-f]{3}  "), bytearray(512)
    for line in lines:
        place, first, second, text = match("([0-9a-f]{3})  ((?:[0-9a-f]{2} ){8}) ((?:[0-9a-f]{2} ){8})  (.+)", line)
        expect(int(place, 16) % 16 == 0 and int(place, 16) < 512, "a line's place:", place)
        data[int(place, 16):int(place, 16) + 16] = bytes.fromhex(first + second)
    t = rota_t(doc)
    answer = library.write_file(t, 512)
    agrees(answer, 0, "T's file", bytes=512)
    expect(left(answer, "file") == data, "the library writes another file of T")
    answer = library.read_file(bytes(data), 3, 3)
    agrees(answer, 0, "T's file", n=t[0])
    expect((words_of(left(answer, "open words")), words_of(left(answer, "callout words"))) == t[1:], "the library reads another rota from T's file")
    for line in lines:
        explained(Layout(doc), data, int(line[:3], 16), line.split("   ", 1)[1])
    return bytes(data), (len(lines), 2)


# ---- the listing program

class Program:
    """The program, run once for the same input."""

    def __init__(self, path):
        self.path, self.known = path, {}

    def text(self, data):
        if data not in self.known:
            self.known[data] = subprocess.run([self.path], input=data, stdout=subprocess.PIPE, check=True, timeout=60).stdout.decode("ascii")
        return self.known[data]


def given(layout, text):
    """The standard input that a row of the table means, one or several."""
    if text == "nothing":
        return [b""]
    if text == "a rota without a plan":
        return [layout.file_of(plain([0, 3])), layout.file_of(plain([1] * 64))]
    if text.startswith("more than"):
        longest = number(*match("more than # bytes", text))
        whole = layout.file_of(sample(64))
        expect(longest == len(whole), "the longest file has", len(whole), "bytes")
        return [whole + b"\0", whole + whole]
    plans = number(*match("a rota of # plans", text))
    return [layout.file_of(with_plans(plans)), layout.file_of(with_plans(plans, ONE_OPEN))]


def listing(doc, program, t_file):
    """T's listing, and the table of first and last things."""
    layout, compared = Layout(doc), 1
    lines = [line for line in doc.indented("Listing program") if " → " not in line]
    expect(program.text(t_file) == "".join(line + "\n" for line in lines), "the program lists T otherwise")
    rows = doc.table("Listing program", "standard input", "lines", "last line")
    for text, size, last in rows:
        for data in given(layout, text):
            written = program.text(data)
            expect(written.endswith("\n") and written.count("\n") == number(size), text, "- the program writes so many lines:", written.count("\n"))
            expect("`%s`" % written.split("\n")[-2] == last, text, "- the program ends with", written.split("\n")[-2])
            compared += 1
    return 1 + len(rows), compared
