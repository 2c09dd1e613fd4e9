"""Changes of files and texts: what is said, which bytes they leave, and that nothing changes where one fails."""
import os
import shutil

import cases
from changing import CELLS, change
from failing import FLUSH, MODE, RENAME, as_nobody, limited, without
from program import CLOSED
from reading import MARK, MOST_BYTES
from reference import EveryCell, Tried
from rotas import T, edited, file_of, form, samples, seeded, side_by_side, small, tidy
from usage_lines import CHANGES, MISSING, UNWRITTEN, wrongly

MODES = 0o600, 0o640, 0o644, 0o666, 0o755, 0o777
# Bytes that a change must keep, and the cell of item 1 and slot 2 at the place of the sign @.
KEPT = MARK + b"# yard \xc3\xa9 \0\r\n\n  Co.  # unit 17 .oC\r\n\too@\t# unit 18\n#ooo\n\n .oC# @ last"


class Place:
    """A folder of its own with one file in it, and how a change there is compared."""

    def __init__(self, command, data, name="yard", mode=0o644):
        command.files += 1
        self.command, self.data, self.file, self.folder = command, data, name, command.folder / f"place-{command.files}"
        self.folder.mkdir()
        (self.folder / name).write_bytes(data)
        (self.folder / name).chmod(mode)

    def name(self):
        return os.path.relpath(self.folder / self.file, self.command.folder)

    def state(self):
        """Everything in the folder: names, modes and bytes."""
        return sorted((path.name, oct(path.stat().st_mode & 0o7777), path.read_bytes()) for path in self.folder.iterdir())

    def expect(self, words, wanted, after, build=0, **how):
        """A run gives this, and leaves these bytes in the file and no other file."""
        [(name, mode, _)] = self.state()
        given = self.command.run(words, build=build, **how)
        self.command.same(words, (*given, self.state()), (*wanted, [(name, mode, after)]), self.data)
        self.data = after

    def change(self, verb, i, j, as_json=False, build=0, **how):
        wanted, after = change(self.name(), self.data, verb, i, j, as_json)
        self.expect([verb, self.name(), str(i), str(j), *["--json"] * as_json], wanted, after, build, **how)

    def fails(self, verb, i, j, why, build=0, **how):
        self.expect([verb, self.name(), str(i), str(j)], ("", f"rota: can't write {self.name()}: {why}\n", 3), self.data, build, **how)


# ---- what is said, and the bytes

def try_answers(command):
    """Changes one after the other, over rotas of every form; some are as wanted already."""
    source = seeded(command.part)
    for k in range(60):
        rota = small(source, 5)
        place = Place(command, form(source, rota), mode=MODES[k % len(MODES)])
        for turn in range(5):
            cell = source.randrange(rota.n), source.randrange(rota.n)
            place.change(source.choice(CHANGES), *cell, source.random() < 0.4, build=int(turn == 0 and k % 2 == 0))


def try_large(command):
    """Refused sides: more than twenty items, and no plan before, after or on both sides."""
    source = seeded("large changes")
    mixed = [side_by_side(source, n, broken) for n, broken in ((21, False), (64, False), (64, True))]
    for rota in [samples()["twenty-items"], EveryCell(32)] + mixed:
        place = Place(command, form(source, rota))
        for verb in CHANGES:
            place.change(verb, source.randrange(rota.n), source.randrange(rota.n), verb == "close")
            place.change(verb, rota.n - 1, rota.n - 1)
    place = Place(command, tidy(Tried([1, 2, 4])))
    for verb, i, j in ("close", 2, 2), ("close", 1, 1), ("open", 0, 1), ("close", 0, 0), ("callout", 2, 2), ("callout", 2, 2), ("open", 0, 0):
        place.change(verb, i, j)


def try_kept(command):
    """Every other byte of a text stays; a file stays the file that the library writes."""
    for k, (verb, cell) in enumerate((verb, cell) for verb in CHANGES for cell in CELLS.values()):
        place = Place(command, KEPT.replace(b"oo@", b"oo" + cell.encode()))
        place.change(verb, 1, 2, k % 2 == 0, build=k % 2)
        assert place.data == KEPT.replace(b"oo@", b"oo" + CELLS[verb].encode())
    filler = tidy(T) + b"#" * (MOST_BYTES - len(tidy(T)))
    Place(command, filler).change("close", 2, 2)
    for n in 31, 32, 62, 63, 64:
        place = Place(command, cases.rota([1 << i for i in range(n)], [1 << i for i in range(n)]))
        place.change("open", n - 1, 0)
        place.change("close", 0, 0)
    source = seeded("kept")
    for _ in range(30):
        data = edited(source, KEPT.replace(b"oo@", b"ooo"))
        if data[:4] != b"ROTA":
            Place(command, data).change("close", 0, 0)


# ---- the file itself

def try_replaced(command):
    """The file is replaced, not written over: who has it open reads the old bytes. As wanted already, it is not touched."""
    for data in tidy(T), file_of(T):
        place = Place(command, data)
        with open(place.folder / place.file, "rb") as old:
            place.change("close", 2, 2)
            command.same(["close", place.name()], (old.read(),), (data,))
        before = os.stat(place.folder / place.file)
        place.change("close", 2, 2)
        after = os.stat(place.folder / place.file)
        command.same(["close", place.name()], ((after.st_ino, after.st_mtime_ns),), ((before.st_ino, before.st_mtime_ns),))
    for mode in MODES:
        Place(command, tidy(T), mode=mode).change("open", 0, 0, before=lambda: os.umask(0o077))


def try_names(command):
    """Links, links to links, and unusual names; beside the link nothing is left either."""
    place, away = Place(command, tidy(T)), command.folder / "away"
    away.mkdir()
    target = os.path.relpath(place.folder / place.file, away)
    (away / "link").symlink_to(target)
    (away / "again").symlink_to("link")
    (away / "whole").symlink_to((place.folder / place.file).resolve())
    (command.folder / "folder").symlink_to("away")
    links = sorted((path.name, os.readlink(path)) for path in away.iterdir())
    asked = ("close", "away/link"), ("open", "away/again"), ("callout", "away/whole"), ("close", "folder/again"), ("open", "./away/../away/link")
    for verb, name in asked:
        wanted, after = change(name, place.data, verb, 0, 1)
        place.expect([verb, name, "0", "1"], wanted, after)
        command.same([verb, name], (sorted((path.name, os.readlink(path)) for path in away.iterdir()),), (links,))
    for name in "-", "-x", "--json", " ", "a b", "x" * 255, ".hidden", "yard.txt~":
        Place(command, tidy(T), name).change("close", 1, 0)
    beside = "yard~", "yard.tmp", "yard.new", ".yard", ".yard.swp", "rota.tmp", "tmp"
    for name in beside:
        command.write(name.encode(), name)
    command.write(tidy(T), "yard")
    command.same(["close", "yard"], command.run(["close", "yard", "0", "0"]), change("yard", tidy(T), "close", 0, 0)[0])
    command.same(["close", "yard"], tuple((command.folder / name).read_bytes() for name in beside), tuple(name.encode() for name in beside))
    for name in "-x", "--json", "a b":
        wanted = change(name, tidy(T), "open", 0, 2)[0]
        command.write(tidy(T), name)
        command.same(["open", "--", name], command.run(["open", "--", name, "0", "2"]), wanted)


def try_unread(command):
    (command.folder / "nowhere").symlink_to("missing")
    (command.folder / "round").symlink_to("round")
    unread = ("missing", MISSING), ("nowhere", MISSING), ("", MISSING), (".", "Is a directory"), ("round", "Too many levels of symbolic links")
    for name, why in unread:
        for verb in CHANGES:
            command.expect([verb, name, "0", "0"], ("", f"rota: can't read {name}: {why}\n", 3))
    for verb in CHANGES:
        command.expect([verb, "-", "0", "0"], wrongly(verb, "a change needs a file, not standard input"), tidy(T))
    for k, (_, data, _) in enumerate(cases.damaged()):
        Place(command, data).change(CHANGES[k % 3], 0, 0, k % 2 == 0)


# ---- what fails

def try_limits(command):
    for rota in T, side_by_side(seeded("limits"), 64):
        for data in tidy(rota), file_of(rota):
            for build, most in (0, 0), (1, 1), (0, len(data) // 2), (1, len(data) - 1):
                place = Place(command, data)
                place.fails("close", 0, first_open(rota), "File too large", build, before=limited(most, most % 2 == 0))
            Place(command, data).change("close", 0, first_open(rota), before=limited(len(data)))


def try_calls(command):
    """Nothing changes unless the new file has its permission bits, is flushed to disk, and is renamed."""
    for numbers in FLUSH, RENAME, MODE:
        for build in 0, 1:
            for data in tidy(T), file_of(T):
                Place(command, data).fails("close", 1, 0, "Input/output error", build, before=without(numbers))


def first_open(rota):
    return (rota.opens[0] & -rota.opens[0]).bit_length() - 1


def try_permissions(command):
    """Somebody else's folder and files. The builds are copied to where everybody may run them."""
    command.folder.chmod(0o755)
    builds, command.builds = command.builds, []
    for k, build in enumerate(builds):
        command.builds.append(shutil.copy(build, command.folder / f"build-{k}"))
        os.chmod(command.builds[-1], 0o755)
    for build in 0, 1:
        for data in tidy(T), file_of(T):
            closed, locked = Place(command, data, mode=0o666), Place(command, data, mode=0o444)
            closed.folder.chmod(0o555)
            locked.folder.chmod(0o777)
            for place in closed, locked:
                place.fails("close", 1, 0, "Permission denied", build, before=as_nobody)
                place.change("open", 1, 0, before=as_nobody)  # it is open already
            closed.folder.chmod(0o777)
            closed.change("close", 1, 0, build=build, before=as_nobody)
    # where others may add files, but not replace those of somebody else
    shared = Place(command, tidy(T), mode=0o666)
    shared.folder.chmod(0o1777)
    if os.geteuid() == 0:
        shared.fails("close", 1, 0, "Operation not permitted", before=as_nobody)
    hidden = command.write(tidy(T))
    (command.folder / hidden).chmod(0o200)
    command.expect(["open", hidden, "1", "0"], ("", f"rota: can't read {hidden}: Permission denied\n", 3), before=as_nobody)
    command.builds = builds


def try_unwritten(command):
    """The answer comes after the file has been replaced, so the change is made where standard output takes nothing."""
    for build in 0, 1:
        for data in tidy(T), file_of(T):
            after = change("", data, "close", 1, 0)[1]
            place = Place(command, data)
            with open("/dev/full", "w") as full:
                place.expect(["close", place.name(), "1", "0"], (None, UNWRITTEN, 3), after, build, out=full)
            place = Place(command, data)
            place.expect(["close", place.name(), "1", "0"], ("", UNWRITTEN, 3), after, build, by=CLOSED)


def try_all(command):
    try_answers(command)
    try_large(command)
    try_kept(command)
    try_replaced(command)
    try_names(command)
    try_unread(command)
    try_limits(command)
    try_calls(command)
    try_permissions(command)
    try_unwritten(command)
