"""What include/rota.h declares, and the layouts of tests/header/layout.h."""
import re
from pathlib import Path

root = Path(__file__).resolve().parents[2]
header = (root / "include/rota.h").read_text(encoding="utf-8")
layout = (root / "tests/header/layout.h").read_text(encoding="utf-8")


def numbers(body):
    return {name: int(value) for name, value in re.findall(r"ROTA_(\w+) = (\d+)", body)}


def codes():
    """The numbers of enum rota_code by name."""
    return numbers(re.search(r"enum rota_code \{(.*?)\};", header, re.S)[1])


def sizes():
    return numbers(re.search(r"^enum \{(.*?)\};", header, re.S | re.M)[1])


def texts():
    """What rota_code_text gives for 0 upward, and for any other number."""
    body = re.search(r"rota_code_text\(uint32_t code\)\n\{(.*?)\n\}", header, re.S)[1]
    *known, other = re.findall(r'"(.*?)"', body)
    return known, other


def calls():
    """For each call the type of its answer and those of its arguments."""
    found = re.findall(r"^(\w+) (rota_\w+)\(([^)]*)\);", header, re.M)
    return {name: (answer, [re.sub(r"(?:const )?(\w+ \*?)\w+$", r"\1", part.strip()).strip() for part in given.split(",")]) for answer, name, given in found}


def layouts():
    """For each struct its size, and for each field its place and size."""
    found = {name: (int(size), {}) for name, size in re.findall(r"^SIZE\((\w+), (\d+)\);", layout, re.M)}
    for name, field, at, size in re.findall(r"^FIELD\((\w+), (\w+), (\d+), (\d+)\);", layout, re.M):
        found[name][1][field] = int(at), int(size)
    return found
