"""What a command of rattle is given to check or build a crate of this repository: the toolchain's folder, and the proved libraries below the
crate, as rt ci or rt check leaves them in crates/NAME/out."""
import re
import subprocess
from pathlib import Path

root = Path(__file__).resolve().parents[1]


class Missing(Exception):
    """There is no proved library of that name."""


def kit():
    """The folder that has the page that rt doc names."""
    return Path(subprocess.run(["rt", "doc"], check=True, capture_output=True, text=True).stdout.strip()).parent


def uses():
    """What each crate of crates.txt stands on."""
    lines = re.findall(r"^(\w+)[^:#\n]*:([^#\n]*)", (root / "crates.txt").read_text(encoding="utf-8"), re.M)
    return {name: used.split() for name, used in lines}


def below(names):
    """The crates of this repository that these stand on, directly or through others, without them."""
    known, found, left = uses(), set(), list(names)
    while left:
        more = {name for name in known.get(left.pop(), []) if name in known} - found
        found |= more
        left += more
    return sorted(found - set(names))


def place(name):
    return root / f"crates/{name}/out/rlib"


def words(names, without=()):
    """The words for what the crates of these names use, all but the crates in `without`, which are given otherwise."""
    home, known = kit(), uses()
    direct = sorted({library for name in names for library in known[name]} - set(without))
    said = ["--extern", f"std={home}/rlibs/std.rlib"]
    for library in direct:
        folder = place(library) if library in known else home / "rlibs"
        said += ["--extern", f"{library}={folder}/{library}.rlib"]
    said += ["-L", f"dependency={home}/rlibs"]
    for library in below(names):
        if library not in without:
            if not (place(library) / f"{library}.rlib").is_dir():
                raise Missing(library)
            said += ["-L", f"dependency={place(library)}"]
    return said + ["--antt-project", f"{home}/rattle/logic/antt-project.json", "--logic-built", f"{home}/logic_built"]
