"""The command's two builds, how they are run, and how what they give is compared."""
import os
import pty
import re
import shlex
import signal
import subprocess

# What a sanitizer finds ends with a status that the command never has, and with a report on standard error.
ENVIRONMENT = {"LC_ALL": "C", "ASAN_OPTIONS": "exitcode=99", "UBSAN_OPTIONS": "exitcode=99"}
SECONDS = 60  # that a run may take
SHOWN = 600  # characters of an output that is shown


# A shell that runs a program with standard output closed.
CLOSED = "sh", "-c", 'exec "$0" "$@" >&-'
# A shell that runs a program, writes a mark behind its output and ends with its status.
MARK = b"\4"
MARKED = "sh", "-c", '"$0" "$@"; status=$?; printf "\\004"; exit "$status"'


class Different(Exception):
    """What was given is not what was wanted."""


def characters(given):
    """Each byte as a character: no line end is changed."""
    return given if given is None else given.decode("latin-1")


def around(text, other):
    """A text as far as it is shown: from a little before the first difference on."""
    if not isinstance(text, str) or not isinstance(other, str):
        return repr(text)
    same = next((k for k, (a, b) in enumerate(zip(text, other)) if a != b), min(len(text), len(other)))
    start = max(0, same - SHOWN // 2)
    return f"{'..' * (start > 0)}{text[start:start + SHOWN]!r}{'..' * (start + SHOWN < len(text))}"


class Command:
    """A part's folder for files, how many runs were compared, and the refusals that were wanted of them."""

    every = 8  # of so many runs one is made with the sanitized build too

    def __init__(self, part, builds, folder, seed=1):
        self.part, self.builds, self.folder, self.seed = part, builds, folder, seed
        self.made = self.files = 0
        self.running, self.codes = [], set()
        signal.signal(signal.SIGALRM, self.too_long)

    def too_long(self, *_):
        raise Different(f"command: {self.part}: rota {self.shown(self.running)}\n  has not ended after {SECONDS} seconds")

    def shown(self, words):
        return shlex.join(characters(w) if isinstance(w, bytes) else str(w) for w in words)[:SHOWN]

    def write(self, data, name=None):
        """The name of a new file in the folder."""
        self.files += name is None
        name = name or f"rota-{self.files}"
        (self.folder / name).write_bytes(data)
        return name

    def run(self, words, data=None, build=0, out=subprocess.PIPE, environment=None, by=(), before=None, source=subprocess.DEVNULL):
        """(standard output, standard error, status) of a build, in the folder; data is what standard input has."""
        given = {"stdin": source} if data is None else {"input": data}
        self.running = words
        signal.alarm(SECONDS)
        done = subprocess.run([*by, self.builds[build], *words], cwd=self.folder, env=environment or ENVIRONMENT, stdout=out, stderr=subprocess.PIPE,
                              preexec_fn=before, **given)
        signal.alarm(0)
        return characters(done.stdout), characters(done.stderr), done.returncode

    def same(self, words, given, wanted, data=None):
        """Compares two tuples, or a tuple with what is said of it."""
        self.made += 1
        if given != wanted:
            where = "" if data is None else f"\n  over   {data[:SHOWN]!r}, {len(data)} bytes"
            pairs = "".join(f"\n  gave   {around(a, b)}\n  wanted {around(b, a)}" for a, b in zip(given, wanted) if a != b)
            raise Different(f"command: {self.part}: rota {self.shown(words)}{where}{pairs}")

    def turn(self):
        """The builds that are run now."""
        return (0, 1) if self.made % self.every == 0 else (0,)

    def expect(self, words, wanted, data=None, shown=None, **how):
        """Runs the ordinary build, of `every` runs one with the sanitized build too, and compares."""
        for build in self.turn():
            self.same(words, self.run(words, data, build, **how), wanted, data if shown is None else shown)

    def ask(self, question, data, as_json=False, piped=False, rota=None, name=None):
        """Asks over these bytes, in a file or at standard input."""
        name = "-" if piped else self.write(data, name)
        wanted = question.wanted("standard input" if piped else name, data, as_json, rota)
        self.codes.update(map(int, re.findall(r": refused (\d+):", wanted[1])))
        self.expect(question.words(name, *["--json"] * as_json), wanted, data if piped else None, data)

    def terminal(self, words, environment, build=0):
        """(what a terminal is given, standard error, status). Its other end stays open till the mark was read: once that is closed, output that was
        not read yet can be lost."""
        self.running = words
        signal.alarm(SECONDS)
        ours, its = pty.openpty()
        given = b""
        with subprocess.Popen([*MARKED, self.builds[build], *words], cwd=self.folder, env={**ENVIRONMENT, **environment}, stdin=subprocess.DEVNULL,
                              stdout=its, stderr=subprocess.PIPE) as running:
            while not given.endswith(MARK):
                given += os.read(ours, 65536)
            err = running.stderr.read()
        os.close(its)
        os.close(ours)
        signal.alarm(0)
        return characters(given[:-len(MARK)].replace(b"\r\n", b"\n")), characters(err), running.returncode
