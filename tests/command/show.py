"""The grid: of every size, with and without a plan, and its colours in a terminal."""
import re

from grid import COLOURS, coloured, grid_of, looks
from reference import EveryCell, Tried, rota_of
from rotas import ALL_LOOKS, T, file_of, form, samples, seeded, side_by_side, tidy
from wording import Ask, figure_lines

EXAMPLE = """\
      slot
item  0 1 2
   0  @ o .
   1  o * o
   2  . o @

         in no plan   usable   first plan
open         -          o          *
callout      c          C          @
closed       .

plans            3
fewest callouts  1
grade            3
"""

# What the environment of a terminal has, and whether there is colour.
TERMINALS = [
    ({"TERM": "xterm"}, True), ({"TERM": "xterm", "NO_COLOR": ""}, True), ({"TERM": "vt100"}, True), ({"TERM": "dumber"}, True),
    ({}, False), ({"TERM": "dumb"}, False), ({"NO_COLOR": ""}, False),
    ({"TERM": "xterm", "NO_COLOR": "1"}, False), ({"TERM": "xterm", "NO_COLOR": "0"}, False),
]


def rotas():
    """One to 64 items; on either side of 10, 20 and 32 the form changes."""
    source = seeded("show")
    yield from (T, ALL_LOOKS, Tried([1]), Tried([1], [1]), Tried([0]), Tried([0, 3], [0, 3]), Tried([1, 1, 2, 14]), Tried([1, 1, 1], [1, 1, 0]))
    yield from samples().values()
    for n in 9, 10, 11, 12, 19, 20, 21, 31, 32, 33, 34, 63, 64:
        yield side_by_side(source, n)
        yield side_by_side(source, n, broken=True)
    yield from (EveryCell(11, 3), EveryCell(20, 20), EveryCell(21), EveryCell(32, 1), EveryCell(33), EveryCell(64, 10))
    yield rota_of([0] * 64)
    yield rota_of([1 << 5 | 1 << 40] * 40 + [1 << 63] * 24)


def try_grids(command):
    source = seeded(command.part)
    command.expect(["show", command.write(tidy(T))], (EXAMPLE, "", 0))
    seen = set()
    for k, rota in enumerate(rotas()):
        seen.update(*looks(rota))
        for as_json in False, True:
            command.ask(Ask("show"), form(source, rota), as_json, k % 3 == 0, rota)
    assert seen == set().union(*looks(ALL_LOOKS)) == set(COLOURS) - {"!"}


def painted(rota):
    return grid_of(looks(rota), [] if rota.first else rota.short[0], coloured) + "\n" + figure_lines(rota)


def try_colours(command):
    """Colour needs a terminal, TERM other than dumb, and no NO_COLOR, or an empty one; nothing else differs for it."""
    broken = side_by_side(seeded("colours"), 40, broken=True)
    for k, rota in enumerate((T, ALL_LOOKS, Tried([0, 3], [0, 3]), broken, EveryCell(12, 2), samples()["sixty-four-items"])):
        file = command.write(file_of(rota))
        plain, colour = Ask("show").wanted(file, file_of(rota), rota=rota), painted(rota)
        assert re.sub("\x1b\\[[0-9;]*m", "", colour) == plain[0] != colour
        for environment, with_colour in TERMINALS:
            given = command.terminal(["show", file], environment, k % 2)
            command.same(["show", file, environment], given, (colour if with_colour else plain[0], "", 0))
        words = ["show", file, "--json"]
        command.same(words, command.terminal(words, {"TERM": "xterm"}), Ask("show").wanted(file, file_of(rota), True, rota))
    file = command.write(tidy(T))
    for words in ["usable", file], ["text", file], ["check", file], ["list", file]:
        command.same(words, command.terminal(words, {"TERM": "xterm"}), Ask(words[0]).wanted(file, tidy(T)))
    command.expect(["show", file], Ask("show").wanted(file, tidy(T)), environment={"TERM": "xterm", "LC_ALL": "C"})


def try_all(command):
    try_grids(command)
    try_colours(command)
