"""Texts of rotas with what they are, set down from the rules of the text form; and random ones."""
import random

NO_CELL = "is no cell; a cell is . (closed), o (open) or C (open and a callout)"
NO_LINE = "refused 1: the rota does not have 1 to 64 items; the text has no line of cells"
TOO_WIDE = "refused 1: the rota does not have 1 to 64 items; line %d has more than 64 cells"
BEHIND = "nothing but a comment may follow the cells"
T = (3, 7, 6), (1, 0, 4)
TWO = (3, 1), (0, 0)

# A text and its open and callout words, or what is said of it.
KNOWN = [
    (b"Co.\nooo\n.oC\n", T),
    (b"Co.\nooo\n.oC", T),
    (b"Co.\r\nooo\r\n.oC\r\n", T),
    (b"Co.\r\nooo\r\n.oC\r", T),
    (b"\xef\xbb\xbfCo.\nooo\n.oC\n", T),
    (b" \t Co. \t\n\n  \nooo\r\r\n\t.oC   ", T),
    (b"# T\nCo.  # unit 17\nooo# unit 18\n   # \xc3\xa9 \x00 .o.\n.oC#\n#\n", T),
    (b"Co.\nooo\n.oC\n\n\n# the end", T),
    (b"o", ((1,), (0,))),
    (b"C\n", ((1,), (1,))),
    (b".", ((0,), (0,))),
    (b"C" * 64 + b"\n" + (b"." * 63 + b"o\n") * 63, (((1 << 64) - 1,) + (1 << 63,) * 63, ((1 << 64) - 1,) + (0,) * 63)),

    (b"", NO_LINE),
    (b"\n", NO_LINE),
    (b" \t\r\n# oo\n", NO_LINE),
    (b"\xef\xbb\xbf", NO_LINE),
    (b"." * 65, TOO_WIDE % 1),
    (b"\n#\n" + b"o" * 65 + b"x", TOO_WIDE % 3),
    (b"." * 64 + b"x", f"line 1, column 65: 'x' {NO_CELL}"),
    (b"." * 64 + b"\n", "line 2, column 1: there are fewer lines of cells than the first one asks for: 1, not 64"),

    (b"oo\nox\n", f"line 2, column 2: 'x' {NO_CELL}"),
    (b"oO\n", f"line 1, column 2: 'O' {NO_CELL}"),
    (b"  c.\n", f"line 1, column 3: 'c' {NO_CELL}"),
    (b"\xef\xbb\xbfx\n", f"line 1, column 1: 'x' {NO_CELL}"),
    (b"\n\xef\xbb\xbfo\n", f"line 2, column 1: byte ef {NO_CELL}"),
    (b"\xef\xbbo", f"line 1, column 1: byte ef {NO_CELL}"),
    (b"o\xc3\xa9\n", f"line 1, column 2: byte c3 {NO_CELL}"),
    (b"oo\no\x00", f"line 2, column 2: byte 00 {NO_CELL}"),
    (b"o\x7f", f"line 1, column 2: byte 7f {NO_CELL}"),
    (b"o~", f"line 1, column 2: '~' {NO_CELL}"),
    (b"!", f"line 1, column 1: '!' {NO_CELL}"),
    (b"o'", f"line 1, column 2: ''' {NO_CELL}"),
    (b"o\x0bo", f"line 1, column 2: byte 0b {NO_CELL}"),
    (b"o\x1f", f"line 1, column 2: byte 1f {NO_CELL}"),
    (b"ROT", f"line 1, column 1: 'R' {NO_CELL}"),
    (b"rota", f"line 1, column 1: 'r' {NO_CELL}"),
    (b"o\nx", f"line 2, column 1: 'x' {NO_CELL}"),
    (b"oo\no.x", f"line 2, column 3: 'x' {NO_CELL}"),

    (b"o\no\n", "line 2, column 1: there are more lines of cells than the 1 that the first one asks for"),
    (b"oo\no.\n\n# x\n  ..x", "line 5, column 3: there are more lines of cells than the 2 that the first one asks for"),
    (b"oo\n.o.\n", "line 2, column 3: there are more cells than the 2 of the first line"),
    (b"oo\n\t.oCx\n", "line 2, column 4: there are more cells than the 2 of the first line"),
    (b"ooo\n\noo\n", "line 3, column 3: there are fewer cells than in the first line: 2, not 3"),
    (b"ooo\n o o\n", "line 2, column 3: there are fewer cells than in the first line: 1, not 3"),
    (b"ooo\noo", "line 2, column 3: there are fewer cells than in the first line: 2, not 3"),
    (b"o o\n", f"line 1, column 3: {BEHIND}"),
    (b"oo\no.\t.\n", f"line 2, column 4: {BEHIND}"),
    (b"oo\ro.\n", f"line 1, column 4: {BEHIND}"),
    (b"oo \xc3\n", f"line 1, column 4: {BEHIND}"),

    (b"oo\n", "line 2, column 1: there are fewer lines of cells than the first one asks for: 1, not 2"),
    (b"oo", "line 2, column 1: there are fewer lines of cells than the first one asks for: 1, not 2"),
    (b"oo\n\n#\n", "line 4, column 1: there are fewer lines of cells than the first one asks for: 1, not 2"),
    (b"oo\n ", "line 3, column 1: there are fewer lines of cells than the first one asks for: 1, not 2"),
    (b"\n\nooo\nooo", "line 5, column 1: there are fewer lines of cells than the first one asks for: 2, not 3"),

    (b"#" * 1_048_569 + b"\noo\no.\n", TWO),
    (b"#" * 1_048_570 + b"\noo\no.\n", "the text has more than 1,048,576 bytes"),
    (b"x" * 1_048_577, "the text has more than 1,048,576 bytes"),
]


def clean(source, n):
    """A text of n items with blanks, comments and line ends of all kinds."""
    end, text = source.choice((b"\n", b"\r\n")), source.choice((b"", b"", b"\xef\xbb\xbf"))
    density = source.choice(("..o", "ooC.", "oC"))
    for _ in range(n):
        text += source.choice((b"", b"", end, b"# a day" + end, b" \t" + end))
        text += source.choice((b"", b"", b" ", b"\t ")) + "".join(source.choice(density) for _ in range(n)).encode()
        text += source.choice((b"", b"", b"  # unit 17", b"#\xc3\xa9", b" \t")) + end
    return text + source.choice((b"", b"", b"\n", b"# end", b" "))


def worn(source, text):
    """The text with a byte or a line changed, added or taken away."""
    at, lines = source.randrange(len(text) + 1), text.splitlines(True)
    line = source.randrange(len(lines)) if lines else 0
    some = bytes([source.choice(b".oCCx#R \t\r\n\x00\x7f\xc3\xff'~!")])
    return source.choice((
        text[:at] + some + text[at:],
        text[:at] + some + text[at + 1:],
        text[:at] + text[at + 1:],
        text[:at],
        b"".join(lines[:line] + lines[line:line + 1] + lines[line:]),
        b"".join(lines[:line] + lines[line + 1:]),
    ))


def some(number):
    source = random.Random(23)
    for k in range(number):
        text = clean(source, source.choice((1, 2, 3, 4, 5, 7, 20, 64, 65)))
        for _ in range(k % 4):
            text = worn(source, text)
        yield text
