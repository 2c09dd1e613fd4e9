"""Places where calls or records stand: parts of files that are made from the manifest, and parts that are compared with it.

A place gives what differs, in words that name the call and the file, and for the self-check the copies of a text in which a call is changed, each with the name of
the call that must be told.
"""
import functools
import re
from dataclasses import dataclass
from typing import Callable, Optional

from manifest import ROOT, Wrong


def read(path):
    """The text of a file, which is empty if there is none; of a folder the texts of its sources, each after a line with its name."""
    found = ROOT / path
    if found.is_dir():
        return "".join(f"\f{part.name}\n{part.read_text(encoding='utf-8')}" for part in sorted(found.rglob("*.rt")))
    return found.read_text(encoding="utf-8") if found.exists() else ""


def squeezed(text):
    """A text with each run of blanks as one."""
    return " ".join(text.split())


def without_word(text, start, end, value):
    """Copies of the text without one word between these places, for each word of the value; a comment has none."""
    code, meant = re.sub(r"/\*.*?\*/", lambda found: " " * len(found[0]), text[start:end], flags=re.S), re.findall(r"[\w-]+", value)
    for word in re.finditer(r"[\w-]+", code):
        if word[0] in meant:
            yield text[:start + word.start()] + text[start + word.end():]


@dataclass(frozen=True)
class Written:
    """A part that is made from the manifest: blocks of text, each with the name of its call or record, or with none. It lies between two patterns."""
    path: str
    what: str
    blocks: Callable  # of the manifest: [(name, text)]
    begin: str = r"\A"
    end: str = r"\Z"

    @functools.lru_cache(maxsize=None)
    def made(self, manifest):
        return tuple(self.blocks(manifest))

    def span(self, text):
        """The part's begin and end, or None."""
        begin = re.search(self.begin, text, re.M)
        end = re.compile(self.end, re.M).search(text, begin.end()) if begin else None
        return (begin.end(), end.start()) if end else None

    def differences(self, manifest, texts):
        text, blocks = texts[self.path], self.made(manifest)
        span = self.span(text)
        if span is None:
            return [f"{self.path} has no {self.what}"]
        part = text[slice(*span)]
        if part == "".join(block for _, block in blocks):
            return []
        names = list(dict.fromkeys(name for name, block in blocks if name and block not in part))
        if not names:
            made = {line for _, block in blocks for line in block.split("\n")}
            names = [line for line in part.split("\n") if line not in made][:1] or ["the order"]
        return [f"{self.path}, {self.what}, is not what calls.txt gives: {name}" for name in names]

    def written(self, manifest, text):
        span = self.span(text)
        if span is None:
            raise Wrong(f"{self.path} has no {self.what}")
        return text[:span[0]] + "".join(block for _, block in self.made(manifest)) + text[span[1]:]

    def changes(self, manifest, texts):
        text = texts[self.path]
        at = self.span(text)[0]
        for name, block in self.made(manifest):
            start, at = at, at + len(block)
            if name:
                yield name, text[:start] + text[at:]
                yield from ((name, copy) for copy in without_word(text, start, at, block))


@dataclass(frozen=True)
class Piece:
    """What a text says of a call or record, and where."""
    name: str
    value: str
    start: int
    end: int


@dataclass(frozen=True)
class Compared:
    """A part that is written by hand."""
    path: str
    what: str
    found: Callable   # of the texts: [Piece]
    wanted: Callable  # of the manifest and the texts: [(name, value)]
    ordered: bool = True
    changed: Optional[Callable] = None  # of a text and a piece: copies that must be told; if it is not given, those without a word of the value

    def differences(self, manifest, texts):
        found, wanted, said = self.found(texts), self.wanted(manifest, texts), []
        names = [piece.name for piece in found]
        where = f"{self.path}, {self.what}"
        for name, value in wanted:
            given = [piece.value for piece in found if piece.name == name]
            if not given:
                said.append(f"{name} is not in {where}")
            elif len(given) > 1:
                said.append(f"{name} stands twice in {where}")
            elif given[0] != value:
                said.append(f"{name} in {where}: it has '{given[0]}', and calls.txt gives '{value}'")
        known = [name for name, _ in wanted]
        said += [f"{name} is in {where}, and not in calls.txt" for name in dict.fromkeys(names) if name not in known]
        if not said and self.ordered and names != known:
            place = next(k for k, pair in enumerate(zip(names, known)) if pair[0] != pair[1])
            said.append(f"{names[place]} stands in {where} where calls.txt has {known[place]}")
        return said

    def changes(self, manifest, texts):
        """Each piece left out, and changed."""
        text = texts[self.path]
        for piece in self.found(texts):
            yield piece.name, text[:piece.start] + text[piece.end:]
            if self.changed:
                yield from ((piece.name, copy) for copy in self.changed(text, piece))
            else:
                yield from ((piece.name, copy) for copy in without_word(text, piece.start, piece.end, piece.value))


@dataclass(frozen=True)
class Named:
    """A text in C that has each call somewhere, made or as a pointer."""
    path: str
    what: str

    def differences(self, manifest, texts):
        made = set(re.findall(r"\brota_\w+", texts[self.path]))
        return [f"{call.symbol} is not in {self.path}, {self.what}" for call in manifest.calls.values() if call.symbol not in made]

    def changes(self, manifest, texts):
        for call in manifest.calls.values():
            yield call.symbol, re.sub(rf"\b{call.symbol}\b", "", texts[self.path])
