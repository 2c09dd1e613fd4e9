"""What the parts of this test share: the header, how a command is run, and how a failure is told."""
import os
import re
import subprocess
import sys
from pathlib import Path

root = Path(__file__).resolve().parents[2]
header = (root / "include/rota.h").read_text(encoding="utf-8")
version = ".".join(re.search(rf"^#define ROTA_VERSION_{part} (\d+)$", header, re.M)[1] for part in ("MAJOR", "MINOR", "PATCH"))
# Flags and folders that the caller's make was given are not those of this test.
environment = {**{name: os.environ[name] for name in ("PATH", "HOME", "TMPDIR", "CC") if name in os.environ}, "LC_ALL": "C"}


def stop(why):
    sys.exit(f"install: {why}")


def same(what, given, wanted):
    if given != wanted:
        stop(f"{what}\n  has    {given}\n  wanted {wanted}")


def run(command, folder, **more):
    """(what a command line writes to standard output and standard error, its status), in a folder; more stands in its environment."""
    done = subprocess.run(["bash", "-o", "pipefail", "-c", command], cwd=folder, env={**environment, **more}, stdin=subprocess.DEVNULL,
                          stdout=subprocess.PIPE, stderr=subprocess.STDOUT)
    return done.stdout.decode("utf-8"), done.returncode


def printed(command, folder, **more):
    """What a command line writes where nothing goes wrong."""
    text, status = run(command, folder, **more)
    if status != 0:
        stop(f"{command}: status {status}\n{text}")
    return text


def squeezed(text):
    """A declaration with each run of blanks as one."""
    return " ".join(text.split())


def declared(text):
    """The declarations of calls in a text, in order."""
    return [squeezed(found) for found in re.findall(r"^ *\w+ rota_\w+\([^)]*\);", text, re.M)]


calls = [re.search(r"rota_\w+(?=\()", line)[0] for line in declared(header)]
