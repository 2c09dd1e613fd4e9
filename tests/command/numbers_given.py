"""Numbers as arguments and as values of options: at their bounds, with zeros before them, and those that are none."""
from rotas import T, tidy
from usage_lines import CHANGES, LONG, no_number, wrongly
from wording import TEXTS, Ask

WORD = 2**32 - 1
NONE = ["", "-", " ", "x", "1x", "x1", " 1", "1 ", "\t1", "1\n", "0x1", "1e3", "1.", "1.0", "1,000", "+1", "1_0", "\u0661", "0b1", "9" * 40]


def beyond(most):
    """Texts that are no number up to this one; a sign before it would be an option, unless it is a value."""
    return NONE + [str(most + 1), f"000{most + 1}", str(most * 10), str(most + 2**64), str(2**128 + 1)]


def within(most):
    """Numbers that would be small ones if some of their bits were lost, among others."""
    wide = [str(k) for k in (2**8, 2**16, 2**32, 2**32 + 1, 2**63, most) if k <= most]
    return ["0", "1", "00", "0001", "0" * 100 + "2", "3", f"0{most}"] + wide


def try_arguments(command):
    """Numbers of 64 bits among the arguments; nothing is read if one is wrong."""
    data = tidy(T)
    for name, count in ("at", 1), ("price", 1), ("cell", 2):
        for place in range(count):
            for text in within(LONG):
                words = ["2"] * place + [text] + ["2"] * (count - 1 - place)
                file = command.write(data)
                command.expect([name, file, *words], Ask(name, *map(int, words)).wanted(file, data))
                command.expect([name, "--json", file, "--", *words], Ask(name, *map(int, words)).wanted(file, data, True))
            for text in beyond(LONG):
                words = ["2"] * place + [text] + ["2"] * (count - 1 - place)
                command.expect([name, "missing", *words], wrongly(name, no_number(bytes_of(text), LONG)))
            words = ["2"] * place + ["-1"] + ["2"] * (count - 1 - place)
            command.expect([name, "missing", "--", *words], wrongly(name, no_number("-1", LONG)))


def bytes_of(text):
    """The text's bytes, each as a character."""
    return text.encode().decode("latin-1")


def try_values(command):
    data = tidy(T)
    for name, option, key, most in ("fewest", "--cap", "cap", WORD), ("list", "--from", "start", LONG), ("list", "--most", "most", LONG):
        for k, text in enumerate(within(most)):
            file = command.write(data)
            words = [[option, text], [f"{option}={text}"]][k % 2]
            command.expect([name, file, *words], Ask(name, **{key: int(text)}).wanted(file, data))
            command.expect([name, *words, "--json", file], Ask(name, **{key: int(text)}).wanted(file, data, True))
        for text in beyond(most) + ["-1", "-0", "--1"]:
            command.expect([name, "missing", f"{option}={text}"], wrongly(name, no_number(bytes_of(text), most)))
        for text in beyond(most):
            command.expect([name, option, text, "missing"], wrongly(name, no_number(bytes_of(text), most)))


def try_new(command):
    heading = "# a line is an item, a character its cell with a slot: . closed, o open, C open and a callout\n"
    for text in "1", "2", "0003", "10", "31", "63", "64", "0064":
        n = int(text)
        command.expect(["new", text], (heading + ("." * n + "\n") * n, "", 0))
    for text in "0", "00", "65", "256", "257", "4294967297", str(LONG):
        command.expect(["new", text], ("", f"rota: refused 1: {TEXTS[1]}\n", 1))
    for text in beyond(LONG):
        command.expect(["new", text], wrongly("new", no_number(bytes_of(text), LONG)))
    command.expect(["new", "--", "-1"], wrongly("new", no_number("-1", LONG)))
    # what is new can be read
    for n in 1, 3, 64:
        made = command.run(["new", str(n)])[0].encode()
        command.ask(Ask("text"), made)
        command.ask(Ask("check"), made, piped=True)


def try_changes(command):
    """Items and slots of a change that the rota does not have, and those that are no number."""
    data = tidy(T)
    file = command.write(data)
    for name in CHANGES:
        for far in "3", "9", "63", "003", "64", "256", str(WORD + 1), str(LONG):
            command.expect([name, file, far, "0"], wrongly(name, f"the rota has no item {int(far)}"))
            command.expect([name, file, "0", far, "--json"], wrongly(name, f"the rota has no slot {int(far)}"))
            command.expect([name, file, far, far], wrongly(name, f"the rota has no item {int(far)}"))
        for text in beyond(LONG):
            for words in [text, "0"], ["0", text]:
                command.expect([name, "missing", *words], wrongly(name, no_number(bytes_of(text), LONG)))
    command.same(["changes", file], ((command.folder / file).read_bytes(),), (data,))


def try_all(command):
    try_arguments(command)
    try_values(command)
    try_new(command)
    try_changes(command)
