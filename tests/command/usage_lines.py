"""The usage line of each command, and what is said where it is called wrongly or something can't be read or written."""

USAGE = {line.split()[1]: line for line in """
rota show FILE [--json]
rota draw FILE
rota check FILE [--json]
rota first FILE [--json]
rota next FILE SLOTS... | --sheet SHEET [--json]
rota list FILE [--from K] [--most N] [--json]
rota fewest FILE [--cap R] [--json]
rota cell FILE I J [--json]
rota at FILE K [--json]
rota number FILE SLOTS... | --sheet SHEET [--json]
rota sheet FILE [SLOTS... | --sheet SHEET | --fewest] [--json]
rota usable FILE [--json]
rota short FILE [--json]
rota count FILE [--json]
rota grade FILE [--json]
rota price FILE VEHICLES [--json]
rota open FILE I J [--json]
rota close FILE I J [--json]
rota callout FILE I J [--json]
rota text FILE
rota file TEXT
rota new N
""".strip().splitlines()}

GENERAL = "rota COMMAND FILE ... [OPTIONS]"
CHANGES = "open", "close", "callout"
WITHOUT_JSON = "draw", "text", "file", "new"
LONG = 2**64 - 1  # the greatest number that may be given
MISSING = "No such file or directory"
UNWRITTEN = "rota: can't write to standard output\n"


def wrongly(name, words):
    """(standard output, standard error, status) of a command that was called wrongly."""
    return "", f"rota: {words}\nusage: {USAGE[name]}\n", 2


def no_number(text, most):
    return f"'{text}' is no number from 0 to {most}"
