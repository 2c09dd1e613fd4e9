"""Texts: what is read of them, or the message; and `rota text` and `rota file`, which undo each other."""
import cases
from reading import MARK, MOST_BYTES
from reference import EveryCell
from rotas import edited, file_of, seeded, small, tidy, written
from wording import Ask

T = b"Co.\nooo\n.oC\n"
WIDE = b"." * 64 + b"\n"


def made():
    """Texts and other bytes, each for a rule of the text form."""
    yield from (b"", b"\n", b"\n \n\t\n", b"# no cells", b"   ", b"\r\n", MARK, MARK + b"\n", MARK + MARK + T, MARK[:2] + T, b"\n" + MARK + T,
                MARK + b"# x\n" + T)
    yield from (T, T[:-1], MARK + T, T.replace(b"\n", b"\r\n"), T.replace(b"\n", b"\r"), T.replace(b"\n", b"\n\n"), b"\n\n" + T, T + b"\n\n  \n",
                T + b" ")
    yield from (b"Co. # unit 17\nooo# unit 18\n\t.oC\t# x # y", b"#\n" + T + b"#", b" Co.\n  ooo \n\t.oC\r\n", b"Co.\nooo\n.oC# \0\xff\xc3\xa9 .oC")
    yield from (b".", b"o\n", b"C", b"\n\no\n\n", b"#o\no", b"oo\nC.\n", b"x", b"'", b"O\n", b"0", b"\xc3\xa9", b"\x7f", b"\x0b", b"\0", b"o\0",
                b"~", b"!")
    # what follows the cells
    yield from (b"o o", b"Co. x\nooo\n.oC\n", b"Co.\nooo o\n.oC\n", b"C o.\nooo\n.oC\n", b"Co.\t \r C\n", b"Co.\r.\n", b"o\rx", b"o \0")
    # too few and too many
    yield from (b"Co.\nooo\n", b"Co.\nooo", b"Co.\n", b"Co.", b"Co.\n\n\n# x\n", b"Co.\n\n\n# x", b"Co.\noo\n.oC\n", b"Co.\noo",
                b"Co.\n  oo # x\n.oC", b"Co.\nooo\n.oCo\n")
    yield from (b"Co.\n ooooooo\n", T + b"...\n", T + b"\n\n  .\n", T + b"x\n", T + b"oooo", T + T, b"oo\n", b"o\no\n", b"o\noo", b"oo\no",
                b"Co.\nooo\nx", b"Co.\nooox\n")
    # 64 items and more
    yield from (WIDE * 64, WIDE * 64 + b"\n# x", WIDE * 65, WIDE * 63, b"." + WIDE, b"\n\n." + WIDE * 65, b"o" * 64 + b"x\n", b"o" * 65 + b"x",
                b"o" * 200, WIDE + b"." + WIDE)
    yield from (WIDE * 64 + b"x", WIDE * 64 + b".", WIDE * 64 + b"#.", WIDE + b"." * 63, b" " * 100 + WIDE * 64,
                b"." * 64 + b"#" + b"." * 64 + b"\n" + WIDE * 63, b"." * 63 + b"\n" + WIDE)
    # no rota file, or a wrong one
    yield from (b"R", b"ROT", b"ROTA", b"ROTAooo", b"rota", b"RO\nTA", b" ROTA", MARK + b"ROTA", b"ROTa" + bytes(508))


def large():
    """Texts at the bound of their length, and lines and columns of many digits."""
    for length in MOST_BYTES - 1, MOST_BYTES, MOST_BYTES + 1:
        yield T + b"#" * (length - len(T))
        yield b"\n" * (length - len(T)) + T
    yield b"x" * (MOST_BYTES + 1)
    yield b"o" * MOST_BYTES
    yield b"\n" * MOST_BYTES
    yield b"#" * 700000 + b"\n" + T[:-2]
    yield b"\n" * 123456 + b"Co.\n oox"
    yield b"C" + b" " * 100000 + b"C"
    yield b"ROTA" + bytes(2 * MOST_BYTES)


def try_texts(command):
    text, both = Ask("text"), (Ask("text"), Ask("check"))
    for k, data in enumerate(made()):
        command.ask(text, data, piped=k % 2 == 0)
        command.ask(both[k % 2], data, as_json=k % 2 == 1, piped=k % 3 == 0)
    for k, data in enumerate(large()):
        command.ask(text, data, piped=k % 3 == 0)
    for byte in range(256):
        command.ask(text, T[:5] + bytes([byte]) + T[6:], piped=byte % 2 == 0)


def try_random(command, number):
    source = seeded(command.part)
    for k in range(number):
        data = written(source, small(source, 4 if k % 2 else 6))
        for _ in range(source.choice((0, 1, 1, 1, 2))):
            data = edited(source, data)
        command.ask(Ask("text"), data, piped=k % 5 == 0)


def try_round(command):
    """A good file gives its text, and the text the file, byte for byte; a damaged one is refused by both."""
    for name, data, _ in cases.good():
        text = Ask("text").wanted(name, data)[0].encode()
        command.ask(Ask("text"), data)
        command.ask(Ask("file"), text, piped=name < "m")
        assert Ask("file").wanted(name, text)[0].encode("latin-1") == data
    for k, (name, data, _) in enumerate(cases.damaged()):
        command.ask(Ask(("text", "file")[k % 2]), data, piped=k % 3 == 0)
    for rota in EveryCell(1), EveryCell(31), EveryCell(32, 5), EveryCell(63), EveryCell(64, 64):
        for data in tidy(rota), file_of(rota):
            command.ask(Ask("text"), data)
            command.ask(Ask("file"), data)


def try_all(command):
    try_texts(command)
    try_random(command, 400)
    try_round(command)
