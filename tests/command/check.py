"""`rota check`: each refusal with its words and its advice, once; plain and JSON, files and texts."""
import cases
from reference import EveryCell, Tried, rota_of
from rotas import WORKED, file_of, samples, seeded, side_by_side, small, tidy, written
from wording import ADVICE, Ask

# A rota without a plan, and more than twenty items: 9 of the first plan, 5 of count and grade.
BOTH = """\
rota text of 21 items: accepted
first plan: refused 9: there is no complete plan; items 0 and 1 are short by 1 slot
  These items have too few slots between them: open further slots to them.
count: refused 5: only rotas of up to 20 items are counted, graded and priced
  Plans, usable slots, fewest callouts and who is short are given up to 64 items.
grade: refused 5: only rotas of up to 20 items are counted, graded and priced
"""
CUT = """\
rota: standard input: refused 12: the file does not have 512, 1,024 or 1,536 bytes
rota: It was cut off or is no rota file; get it again from where it came.
"""


def refused():
    """Bytes that are refused, a text among them, and texts that are none."""
    for _, data, _ in cases.damaged():
        yield data
    yield from (b"", b"# nothing\n", b"o" * 65, b"\n\n  " + b"." * 70, b"ROTA", b"ROTA" * 128, b"ROTA" + bytes(508))
    yield from (b"x", b"oo\no", b"oo", b"o o", b"o\no")


def try_accepted(command):
    source = seeded(command.part)
    rotas = [rota_of(*tables) for tables in WORKED] + list(samples().values()) + [small(source) for _ in range(40)]
    rotas += [side_by_side(source, n, broken) for n in (12, 20, 21, 64) for broken in (False, True)]
    rotas += [EveryCell(20), EveryCell(21), EveryCell(64)]
    for k, rota in enumerate(rotas):
        for as_json in False, True:
            for data in file_of(rota), (tidy(rota), written(source, rota))[k % 2]:
                command.ask(Ask("check"), data, as_json, k % 3 == 0, rota)


def try_all(command):
    try_accepted(command)
    for data in refused():
        command.ask(Ask("check"), data)
        command.ask(Ask("check"), data, as_json=True, piped=True)
    command.expect(["check", command.write(tidy(rota_of([1, 1] + [2 << i for i in range(19)])))], (BOTH, "", 1))
    command.expect(["check", "-"], ("", CUT, 1), b"ROTA")
    # each advice is given somewhere above
    told = [Ask("check").wanted("", data)[1] for data in refused()] + [BOTH]
    assert [code for code, words in ADVICE.items() if not any(words in text for text in told)] == []
    assert Ask("check").wanted("", tidy(Tried([0])))[2] == 1
