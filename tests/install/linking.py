"""The shared library as it is laid out, and README's program in C built with what pkg-config says."""
import re
from textwrap import dedent

from common import calls, printed, root, same, stop, version


def needed(path):
    return re.findall(r"\(NEEDED\) +Shared library: \[(.*)\]", printed(f"readelf -dW '{path}'", root))


def layout(lib):
    """Soname, exports, and what the loader is told: all symbols bound before the start, no code changed, no stack that can be run."""
    path = lib / "librota.so"
    dynamic, segments = (printed(f"readelf -{part}W '{path}'", root) for part in "dl")
    same("soname", re.findall(r"\(SONAME\) +Library soname: \[(.*)\]", dynamic), ["librota.so.1"])
    same("what the shared library needs", needed(path), ["libc.so.6"])
    same("exports", sorted(line.split()[-1] for line in printed(f"nm -D --defined-only '{path}'", root).splitlines()), sorted(calls))
    same("number of calls", len(calls), 20)
    same("bound before the start", "BIND_NOW" in dynamic and "GNU_RELRO" in segments, True)
    same("text relocations", "TEXTREL" in dynamic, False)
    same("the stack's flags", re.findall(r"GNU_STACK(?: +0x\w+){5} +([RWE]+)", segments), ["RW"])


def readme():
    """README's program in C, and what it prints."""
    text = (root / "README.md").read_text(encoding="utf-8")
    blocks = [dedent(block).strip("\n") + "\n" for block in re.findall(r"(?:^    .*\n|^\n(?=    ))+", text, re.M)]
    programs = [block for block in blocks if block.startswith("#include")]
    prints = re.findall(r"^ *gcc -Iinclude plan\.c.*? +# (.*)$", text, re.M)
    if len(programs) != 1 or len(prints) != 1:
        stop(f"README has {len(programs)} programs in C and {len(prints)} lines with what it prints")
    return programs[0], prints[0] + "\n"


def built(prefix, folder, source, static=False):
    """The path of a program, built as a user does it. A warning is a failure."""
    (folder / "plan.c").write_text(source, encoding="utf-8")
    flags = "-static plan.c $(pkg-config --static --cflags --libs rota)" if static else "plan.c $(pkg-config --cflags --libs rota)"
    same("what the compiler says", printed(f"${{CC:-cc}} {flags} -o plan", folder, PKG_CONFIG_LIBDIR=f"{prefix}/lib/pkgconfig"), "")
    return folder / "plan"


def shared(prefix, folder, source, text):
    program = built(prefix, folder, source)
    same("what a program needs", needed(program), ["librota.so.1", "libc.so.6"])
    path = {"LD_LIBRARY_PATH": f"{prefix}/lib"}
    same("where it is found", re.findall(r"librota\.so\.1 => (\S+)", printed("ldd plan", folder, **path)), [f"{prefix}/lib/librota.so.1"])
    same("what it prints", printed("./plan", folder, **path), text)


def static(prefix, folder, source, text):
    program = built(prefix, folder, source, static=True)
    same("what a static program needs", needed(program), [])
    same("what it prints", printed("./plan", folder), text)


def command(prefix):
    """The command has the library in it, and the header's version."""
    same("librota among what the command needs", [name for name in needed(prefix / "bin/rota") if "rota" in name], [])
    same("rota --version", printed(f"'{prefix}/bin/rota' --version", root), f"rota {version}\n")
    same("rota first", printed(f"'{prefix}/bin/rota' first examples/three-items.rota", root), "0 1 2 / 2\n")
