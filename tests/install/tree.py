"""What make install puts where, with which mode, and what make uninstall leaves."""
import os
import re
import shlex
import stat

from common import printed, root, run, same, stop, version

SHARED = f"librota.so.1.{version}"
# A mode, or where a link goes.
TREE = {
    "bin/rota": 0o755,
    "include/rota.h": 0o644,
    "lib/librota.a": 0o644,
    f"lib/{SHARED}": 0o755,
    "lib/librota.so.1": SHARED,
    "lib/librota.so": "librota.so.1",
    "lib/pkgconfig/rota.pc": 0o644,
    "share/man/man1/rota.1": 0o644,
    "share/man/man3/rota.3": 0o644,
    "share/man/man5/rota.5": 0o644,
}


class Install:
    """The make of the root, with what is built already."""

    def __init__(self, library, product):
        self.library, self.product = library, product

    def line(self, target, **folders):
        given = [target, "-C", str(root), f"BUILD={self.product}", f"LIBRARY={self.library}", *(f"{name}={path}" for name, path in folders.items())]
        return "umask 077 && make --no-print-directory -s " + " ".join(map(shlex.quote, given))

    def make(self, target, **folders):
        same(f"make {target}, what it prints", printed(self.line(target, **folders), root), "")

    def refused(self, folder, name, path):
        """A wrong folder is named, and nothing is made."""
        text, status = run(self.line("install", DESTDIR=f"{folder}/", **{name: path}), folder)
        if status == 0 or f"{name} is '{path}': " not in text:
            stop(f"make install with {name} {path}: status {status}, {text}")
        same(f"a folder after {name} {path} was refused", list(folder.iterdir()), [])


def tree(folder):
    """Every file and link below a folder."""
    return {str(path.relative_to(folder)): os.readlink(path) if path.is_symlink() else stat.S_IMODE(path.stat().st_mode)
            for path in folder.rglob("*") if path.is_symlink() or not path.is_dir()}


def folders_of(folder):
    return {str(path.relative_to(folder)): stat.S_IMODE(path.stat().st_mode) for path in folder.rglob("*") if path.is_dir()}


def pkg_config(folder, what):
    return printed(f"pkg-config {what} rota", root, PKG_CONFIG_LIBDIR=str(folder)).strip()


def variables(folder):
    return [pkg_config(folder, f"--variable={name}") for name in ("prefix", "libdir", "includedir")]


def contents(install, folder):
    """Header and archive are the sources' own, the pages have the version in its places; nothing is left to be put in."""
    same("include/rota.h", (folder / "include/rota.h").read_bytes() == (root / "include/rota.h").read_bytes(), True)
    same("lib/librota.a", (folder / "lib/librota.a").read_bytes() == (install.library / "librota.a").read_bytes(), True)
    for section in "135":
        page = (root / f"man/rota.{section}").read_text(encoding="ascii")
        same(f"rota.{section} names the version", "@VERSION@" in page, True)
        given = (folder / f"share/man/man{section}/rota.{section}").read_text(encoding="ascii")
        same(f"man{section}/rota.{section}", given == page.replace("@VERSION@", version), True)
    same("rota.pc, places left", re.findall("@[A-Z]+@", (folder / "lib/pkgconfig/rota.pc").read_text(encoding="utf-8")), [])
    same("rota.pc", [*variables(folder / "lib/pkgconfig"), pkg_config(folder / "lib/pkgconfig", "--modversion")],
         [str(folder), f"{folder}/lib", f"{folder}/include", version])


def installed(install, folder):
    """To an empty folder, twice: the second time over the first."""
    for _ in range(2):
        install.make("install", PREFIX=folder)
        same("files, modes and links", tree(folder), TREE)
        same("modes of folders", set(folders_of(folder).values()), {0o755})
    contents(install, folder)


def staged(install, folder, prefixed):
    """For a package: the same files under DESTDIR, whatever its name; a folder that is there keeps its mode."""
    stage = folder / "a stage's folder"
    (stage / "usr/lib").mkdir(parents=True)
    (stage / "usr/lib").chmod(0o770)
    install.make("install", DESTDIR=stage, PREFIX="/usr")
    same("files, modes and links under DESTDIR", tree(folder), {f"{stage.name}/usr/{name}": mode for name, mode in TREE.items()})
    same("the mode of a folder that was there", folders_of(stage)["usr/lib"], 0o770)
    same("rota.pc under DESTDIR", variables(stage / "usr/lib/pkgconfig"), ["/usr", "/usr/lib", "/usr/include"])
    others = [name for name in TREE if name != "lib/pkgconfig/rota.pc" and (stage / "usr" / name).read_bytes() != (prefixed / name).read_bytes()]
    same("files that differ by PREFIX", others, [])
    (stage / "usr/lib/other").touch()
    install.make("uninstall", DESTDIR=stage, PREFIX="/usr")
    same("files after make uninstall, besides another one's", list(tree(stage)), ["usr/lib/other"])


def placed(install, folder):
    """Each folder by itself."""
    own = {"BINDIR": "/b", "LIBDIR": "/p/l", "INCLUDEDIR": "/i", "MANDIR": "/m", "PKGCONFIGDIR": "/k"}
    install.make("install", DESTDIR=folder, PREFIX="/p", **own)
    moved = {"bin/": "b/", "include/": "i/", "lib/pkgconfig/": "k/", "lib/": "p/l/", "share/man/": "m/"}
    wanted = {}
    for name, mode in TREE.items():
        before = next(part for part in moved if name.startswith(part))
        wanted[moved[before] + name[len(before):]] = mode
    same("files, modes and links with folders of their own", tree(folder), wanted)
    same("rota.pc with folders of their own", variables(folder / "k"), ["/p", "/p/l", "/i"])
    install.make("uninstall", DESTDIR=folder, PREFIX="/p", **own)
    same("files after make uninstall", tree(folder), {})


def refusals(install, folder):
    for name, path in ("PREFIX", "/a /b"), ("PREFIX", "/a'b"), ("PREFIX", "usr"), ("LIBDIR", "lib"):
        install.refused(folder, name, path)
