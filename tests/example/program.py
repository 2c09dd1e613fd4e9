"""An example program that is run and compared, and what the programs have in common."""
import subprocess
import sys
from pathlib import Path

from cases import damaged, rota

root = Path(__file__).resolve().parents[2]

REFUSED = {
    3: "an item is open for a slot that the rota does not have",
    4: "a callout stands where the slot is not open to the item",
    12: "the file does not have 512, 1,024 or 1,536 bytes",
    13: "the check of a block is wrong, so the file is damaged",
    14: "the file is not laid out as a rota file",
}

# Rotas without a plan and who is short. Of the last one items 0 and 63 have slot 62 between them; items 1 to 62 have all the others.
SHORT = {
    "nothing": ([0, 3], "item 0 is short by 1 slot"),
    "three": ([1, 1, 1], "items 0, 1 and 2 are short by 2 slots"),
    "ends": ([1 << 62] + [(1 << 64) - 1 - (1 << 62)] * 62 + [1 << 62], "items 0 and 63 are short by 1 slot"),
}

# A shell that runs a program with standard output closed.
CLOSED = "sh", "-c", 'exec "$0" "$@" >&-'


def text(given):
    """Each byte as a character: no line end is changed."""
    return given if given is None else given.decode("latin-1")


class Program:
    """A program, a folder for the files that are made for it, and how many runs were compared."""

    name = call = short_of = ""  # its name, its usage line, and what it says is refused where there is no plan

    def __init__(self, path, folder):
        self.path, self.folder, self.made = path, folder, 0
        self.unwritten = f"{self.name}: can't write to standard output\n"

    def run(self, arguments, out=subprocess.PIPE, err=subprocess.PIPE, by=()):
        """(standard output, standard error, status) of the program, in the repository's root."""
        done = subprocess.run([*by, self.path, *arguments], cwd=root, env={"LC_ALL": "C"}, stdin=subprocess.DEVNULL, stdout=out, stderr=err)
        return text(done.stdout), text(done.stderr), done.returncode

    def same(self, arguments, given, wanted):
        self.made += 1
        if given != wanted:
            sys.exit(f"example: {self.name} {' '.join(arguments)}\n  gave   {given}\n  wanted {wanted}")

    def expect(self, arguments, out, err, status):
        self.same(arguments, self.run(arguments), (out, err, status))

    def write(self, name, data):
        """The path of a new file."""
        (self.folder / name).write_bytes(data)
        return str(self.folder / name)

    def refused(self, file, code):
        return f"{self.name}: {file}: refused {code}: {REFUSED[code]}\n"

    def short(self, file, who):
        return f"{self.name}: {file}: {self.short_of}refused 9: there is no complete plan; {who}\n"

    def on_short(self):
        file = "examples/short-of-slots.rota"
        self.expect([file], "", self.short(file, "items 0 and 1 are short by 1 slot"), 1)
        for name, (opens, who) in SHORT.items():
            file = self.write(name, rota(opens))
            self.expect([file], "", self.short(file, who), 1)

    def on_damaged(self):
        self.expect(["examples/damaged.rota"], "", self.refused("examples/damaged.rota", 13), 1)
        codes = set()
        for name, data, code in damaged():
            file = self.write(name, data)
            self.expect([file], "", self.refused(file, code), 1)
            codes.add(code)
        assert codes == set(REFUSED)

    def not_read(self):
        missing = str(self.folder / "missing")
        self.expect([missing], "", f"{self.name}: can't read {missing}: No such file or directory\n", 2)
        self.expect(["examples"], "", f"{self.name}: can't read examples: Is a directory\n", 2)
        self.expect(["/dev/null"], "", self.refused("/dev/null", 12), 1)

    def helped(self, *parts):
        """The help has the usage line, these parts and the exit statuses, and ends with a line feed."""
        given, err, status = self.run(["--help"])
        missing = [part for part in (self.call, *parts, "\nExit status:\n  0  ", "\n  1  ", "\n  2  ") if part not in given]
        self.same(["--help"], (missing, given[-1:], err, status), ([], "\n", "", 0))
        self.expect(["-h"], given, "", 0)

    def not_written(self):
        """Standard output that takes nothing: a full device, and none at all."""
        file, refused = "examples/three-items.rota", "examples/short-of-slots.rota"
        with open("/dev/full", "w") as full:
            self.same([file], self.run([file], full), (None, self.unwritten, 2))
            self.same(["--help"], self.run(["--help"], full), (None, self.unwritten, 2))
            self.same([refused], self.run([refused], full), (None, self.short(refused, "items 0 and 1 are short by 1 slot"), 1))
        self.same([file], self.run([file], by=CLOSED), ("", self.unwritten, 2))
        self.same(["--help"], self.run(["--help"], by=CLOSED), ("", self.unwritten, 2))
