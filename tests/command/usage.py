"""Every way to call the command wrongly, help and version, and what can't be read or written."""
import os
import re

from program import CLOSED
from reference import Tried
from rotas import T, file_of, samples, tidy
from usage_lines import CHANGES, GENERAL, LONG, MISSING, UNWRITTEN, USAGE, WITHOUT_JSON, wrongly
from wording import VERSION, Ask

# The arguments after FILE that a command needs.
NEEDED = {"at": ["0"], "price": ["100"], "next": ["0", "1", "2"], "number": ["0", "1", "2"], **dict.fromkeys(("cell", *CHANGES), ["0", "0"])}
VALUED = {"next": ["--sheet"], "number": ["--sheet"], "sheet": ["--sheet"], "list": ["--from", "--most"], "fewest": ["--cap"]}
OPTIONS = "--json", "--sheet", "--from", "--most", "--cap", "--fewest"
NO_OPTIONS = ["--x", "-x", "-j", "--JSON", "--jso", "--json ", "--jsonx", "---", "--=", "-1", "--version"]


def asked(name, file):
    """A right call."""
    return ["new", "3"] if name == "new" else [name, file, *NEEDED.get(name, [])]


def expect_wrong(command, name, words, **how):
    """The words are the command's own; the usage line is not. There is no file to be read."""
    for build in command.turn():
        out, err, status = command.run(words, build=build, **how)
        found = re.fullmatch(r"rota: [^\n]+\n(usage: .*)\n", err, re.DOTALL)
        command.same(words, (out, found and found[1], status), ("", f"usage: {USAGE[name]}", 2))


# ---- wrong calls

def expect_general(command, words, beginning):
    """Standard error begins so, and then names the help."""
    out, err, status = command.run(words)
    command.same(words, (out, err[:len(beginning)], "rota --help" in err[len(beginning):], status), ("", beginning, True, 2))


def try_general(command):
    line = f"usage: {GENERAL}\n"
    expect_general(command, [], line)
    for word in "x", "Show", "shows", "sho", "", "showfile", "-", "rota", "first plan", "open ", "\xe9", "x" * 5000, "%s%n":
        expect_general(command, [word, "missing"], f"rota: there is no command '{word.encode().decode('latin-1')}'\n{line}")
    for words in ["--json"], ["--x", "show"], ["--json", "show", "missing"], ["-x"], ["--"]:
        out, _, status = command.run(words)
        command.same(words, (out, status), ("", 2))


def try_counts(command):
    """Too few arguments, and too many."""
    for name in USAGE:
        words = asked(name, "missing")
        expect_wrong(command, name, [name])
        if name in NEEDED:
            expect_wrong(command, name, words[:2])
        if name in ("cell", *CHANGES):
            expect_wrong(command, name, words[:3])
        if name not in ("next", "number", "sheet"):
            expect_wrong(command, name, [*words, "0"])
            expect_wrong(command, name, [*words, "-"])
            expect_wrong(command, name, [*words, "--", "--json"])
            expect_wrong(command, name, [*words, "0", "0", "0", "/"])


def try_options(command):
    for name in USAGE:
        words = asked(name, "missing")
        known = VALUED.get(name, []) + ["--json"] * (name not in WITHOUT_JSON) + ["--fewest"] * (name == "sheet")
        for option in NO_OPTIONS + sorted(set(OPTIONS) - set(known)):
            expect_wrong(command, name, [*words, option])
            expect_wrong(command, name, [name, option, *words[1:]])
        if "--json" in known:
            expect_wrong(command, name, [*words, "--json", "--json"])
            expect_wrong(command, name, [name, "--json", *words[1:], "--json"])
            for option in "--json=", "--json=1", "--json=true":
                expect_wrong(command, name, [*words, option])
        for option in VALUED.get(name, []):
            base = [name, "missing"]
            expect_wrong(command, name, [*base, option])
            expect_wrong(command, name, [*base, option, "1", option, "1"])
            expect_wrong(command, name, [*base, f"{option}=1", f"{option}=1"])
            expect_wrong(command, name, [*base, f"{option}=1", option])


def try_given_twice(command):
    """A plan is given as slots, as a sheet, or as that with the fewest callouts."""
    for name in "next", "number", "sheet":
        expect_wrong(command, name, [name, "missing", "0", "1", "2", "--sheet", "missing"])
        expect_wrong(command, name, [name, "missing", "--sheet=missing", "0"])
    expect_wrong(command, "sheet", ["sheet", "missing", "--sheet", "missing", "--fewest"])
    expect_wrong(command, "sheet", ["sheet", "missing", "0", "1", "2", "--fewest"])
    expect_wrong(command, "sheet", ["sheet", "missing", "--fewest", "--fewest"])
    expect_wrong(command, "sheet", ["sheet", "missing", "--fewest=1"])
    for name in "next", "number":
        expect_wrong(command, name, [name, "missing", "--json"])


def try_order(command):
    """Options stand anywhere after the command."""
    file, data = command.write(tidy(T)), tidy(T)
    plan = Ask("next", 0, 1, 2).wanted(file, data, True)
    for words in (["--json", file, "0", "1", "2"], [file, "--json", "0", "1", "2"], [file, "0", "1", "--json", "2"], [file, "0", "1", "2", "--json"],
                  ["--json", "--", file, "0", "1", "2"]):
        command.expect(["next", *words], plan)
    some = Ask("list", start=1, most=1).wanted(file, data, True)
    for words in (["--from", "1", "--most=1", "--json", file], [file, "--most", "1", "--json", "--from=1"],
                  ["--json", "--most=01", file, "--from", "1"], ["--from=1", "--most=1", "--json", "--", file]):
        command.expect(["list", *words], some)
    command.write(data, "--json")
    command.expect(["first", "--", "--json"], Ask("first").wanted("--json", data))
    command.expect(["first", "--json", "--", "--json"], Ask("first").wanted("--json", data, True))
    for name in "--", "--help", "-x":
        command.expect(["first", "--", name], ("", f"rota: can't read {name}: {MISSING}\n", 3))


# ---- help and version

def try_help(command):
    for words in ["--help"], ["-h"], ["help"]:
        out, err, status = command.run(words)
        missing = [name for name in USAGE if not re.search(rf"^ +(rota )?{name}\b", out, re.MULTILINE)]
        command.same(words, (missing, f"usage: {GENERAL}\n" in out, out[-1:], err, status), ([], True, "\n", "", 0))
    command.expect(["--version"], (f"rota {VERSION}\n", "", 0))
    for name, usage in USAGE.items():
        wanted = None
        for k, words in enumerate((["--help"], ["missing", "--help"], ["--help", "--x", "--json", "--json", "1", "2", "3", "4"],
                                   ["--cap=x", "--json=1", "--help"], ["-", "-x", "--help"])):
            given = command.run([name, *words], build=k // 4)
            wanted = wanted or (given[0], "", 0)
            command.same([name, *words], (f"usage: {usage}\n" in given[0], *given), (True, *wanted))


# ---- what can't be read or written

def try_unread(command):
    for name in USAGE:
        if name == "new":
            continue
        for file, why in ("missing", MISSING), (".", "Is a directory"), ("", MISSING), ("rota/x", MISSING), ("%s%n\xff\n", MISSING):
            command.expect(asked(name, file.encode("latin-1")), ("", f"rota: can't read {file}: {why}\n", 3))
        if name not in CHANGES:
            folder = os.open(".", os.O_RDONLY)
            command.expect(asked(name, "-"), ("", "rota: can't read standard input: Is a directory\n", 3), source=folder)
            os.close(folder)
            command.expect(asked(name, "-"), ("", "rota: can't read standard input: Bad file descriptor\n", 3), by=("sh", "-c", 'exec "$0" "$@" <&-'))
    command.write(b"x", "plain")
    command.expect(["show", "plain/x", "--json"], ("", "rota: can't read plain/x: Not a directory\n", 3))


def try_unwritten(command):
    """Standard output that takes nothing: a full device, and none at all. A long answer fails before its end."""
    file, long = command.write(tidy(T)), command.write(file_of(samples()["sixty-four-items"]))
    short = command.write(tidy(Tried([0, 3])))
    calls = [["first", file, "--json"], ["--help"], ["--version"], ["show", "--help"], ["draw", long], ["list", long], ["check", short]]
    for words in calls + [asked(name, file) for name in USAGE if name not in CHANGES]:
        with open("/dev/full", "w") as full:
            command.expect(words, (None, UNWRITTEN, 3), out=full)
        command.expect(words, ("", UNWRITTEN, 3), by=CLOSED)
    with open("/dev/full", "w") as full:
        command.expect(["list", long, f"--most={LONG}"], (None, UNWRITTEN, 3), out=full)  # not all of them are tried
        for words in ["first", short], ["price", file, "0"], ["show", "missing"], ["show"], ["next", file, "1"]:
            out, err, status = command.run(words)
            command.expect(words, (None, err, status), out=full)
    # a pipe that nobody reads
    ours, its = os.pipe()
    os.close(ours)
    for build in 0, 1:
        given = command.run(["list", long], build=build, out=its, by=("sh", "-c", 'trap "" PIPE; exec "$0" "$@"'))
        command.same(["list", long], given, (None, UNWRITTEN, 3))
    os.close(its)


def try_terminal(command):
    """A rota file is not written to a terminal, and nothing is read for it."""
    for words in ["file", "missing"], ["file", command.write(tidy(T))]:
        wanted = wrongly("file", "a rota file is no text for a terminal; say rota file TEXT > FILE")
        command.same(words, command.terminal(words, {"TERM": "xterm"}), wanted)


def try_all(command):
    try_general(command)
    try_counts(command)
    try_options(command)
    try_given_twice(command)
    try_order(command)
    try_help(command)
    try_unread(command)
    try_unwritten(command)
    try_terminal(command)
