"""The picture: well-formed and self-contained, with a mark for every open cell in its place, headings, legend and figures."""
import itertools
import xml.etree.ElementTree as ElementTree

import cases
from grid import looks
from reference import EveryCell, Tried, rota_of
from rotas import ALL_LOOKS, T, file_of, form, samples, seeded, side_by_side
from wording import Ask, figure_lines

SVG = "{http://www.w3.org/2000/svg}"
IDS = {"-": "unusable", "c": "unusable-callout", "o": "usable", "C": "usable-callout", "*": "plan", "@": "plan-callout"}
WHITE = "#fff", "#ffffff", "white"
FOREIGN = "script", "image", "foreignObject", "style", "a", "iframe", "animate", "set"


class Picture:
    """A drawing's tree, and where its grid is."""

    def __init__(self, data):
        self.root = ElementTree.fromstring(data.encode("latin-1"))
        self.elements = list(self.root.iter())
        self.texts = [e for e in self.elements if e.tag == SVG + "text"]
        self.cells = [e for e in self.elements if e.tag == SVG + "use" and e.get("data-item") is not None]

    def marks(self):
        return sorted((int(e.get("data-item")), int(e.get("data-slot")), e.get("href")) for e in self.cells)

    def lattice(self):
        """(left, top, side) of the grid of equal squares that all cells stand in; None if there is none."""
        side = {(e.get("width"), e.get("height")) for e in self.cells}
        if len(side) != 1 or len(set(side.copy().pop())) != 1:
            return None
        side = float(side.pop()[0])
        corners = {(float(e.get("x")) - int(e.get("data-slot")) * side, float(e.get("y")) - int(e.get("data-item")) * side) for e in self.cells}
        return (*corners.pop(), side) if len(corners) == 1 else None

    def words(self):
        return " ".join(" ".join("".join(e.itertext()) for e in self.texts).split())

    def short_rows(self, top, side, n):
        """The rows that a `!` stands in."""
        rows = [int((float(e.get("y")) - top) // side) for e in self.texts if "".join(e.itertext()) == "!"]
        return sorted(row for row in rows if 0 <= row < n)

    def headed(self, left, top, side):
        """The slots with their number above their column, and the items with theirs left of their row."""
        placed = [("".join(e.itertext()).strip(), float(e.get("x", "0")), float(e.get("y", "0"))) for e in self.texts]
        slots = [int((x - left) // side) for text, x, y in placed if text.isdigit() and y <= top and text == str(int((x - left) // side))]
        items = [int((y - top) // side) for text, x, y in placed if text.isdigit() and x <= left and text == str(int((y - top) // side))]
        return sorted(slots), sorted(items)


def wrong_parts(picture):
    """What the file must not have, or lacks."""
    names = {e.get("id") for e in picture.elements if e.get("id")}
    for e in picture.elements:
        tag = e.tag.replace(SVG, "")
        if "{" in tag or tag in FOREIGN:
            yield f"an element {tag}"
        for key, value in e.attrib.items():
            if key.startswith("on") or "{" in key or ":" in value or "url(" in value:
                yield f"an attribute {key}={value}"
            if key == "href" and value[1:] not in names:
                yield f"no element {value}"
    if len(names) != len([e for e in picture.elements if e.get("id")]):
        yield "an id that stands twice"
    for name in "title", "desc":
        if not [e for e in picture.root if e.tag == SVG + name and (e.text or "").strip()]:
            yield f"no {name}"
    if not picture.root.get("viewBox"):
        yield "no viewBox"


def shape(e):
    """An element without its colours."""
    kept = sorted((key, value) for key, value in e.attrib.items() if key not in ("id", "fill", "stroke", "color", "style", "opacity"))
    return (e.tag, kept, [shape(child) for child in e])


def wrong_looks(picture):
    """Looks whose shapes are the same, and the background if it is not white."""
    shapes = {e.get("id"): shape(e) for e in picture.elements if e.get("id") in IDS.values()}
    if set(shapes) != set(IDS.values()):
        yield "a look is missing"
    for one, other in itertools.combinations(sorted(shapes), 2):
        if shapes[one][2] == shapes[other][2]:
            yield f"{one} as {other}"
    shown = [e for e in picture.elements if e.tag in (SVG + "rect", SVG + "use", SVG + "text", SVG + "path")]
    ground = next(e for e in shown if e.tag == SVG + "rect" and e.get("width") in ("100%", picture.root.get("width")))
    if ground.get("fill") not in WHITE or ground.get("height") not in ("100%", picture.root.get("height")):
        yield "no white background"
    if set(IDS.values()) - {e.get("href", "")[1:] for e in shown if e.get("data-item") is None}:
        yield "the legend lacks a look"


def try_picture(command, rota, data, piped):
    words = ["draw", "-" if piped else command.write(data)]
    for build in 0, 1:
        out, err, status = command.run(words, data if piped else None, build)
        command.same(words, (err, status), ("", 0), data)
        picture = Picture(out)
        command.same(words, (list(wrong_parts(picture)), list(wrong_looks(picture))), ([], []), data)
        wanted = [(i, j, "#" + IDS[look]) for i, row in enumerate(looks(rota)) for j, look in enumerate(row) if look != "."]
        command.same(words, (picture.marks(),), (wanted,), data)
        figures = " ".join(figure_lines(rota).replace("no plan:", "no plan").split())
        command.same(words, (figures in picture.words(),), (True,), data)
        if wanted:
            every = set(range(rota.n))
            command.same(words, (picture.lattice() is not None,), (True,), data)
            left, top, side = picture.lattice()
            slots, items = picture.headed(left, top, side)
            command.same(words, (every - set(slots), every - set(items)), (set(), set()), data)
            command.same(words, (picture.short_rows(top, side, rota.n),), (rota.short[0] if rota.first is None else [],), data)


def rotas():
    source = seeded("draw")
    yield from (T, ALL_LOOKS, Tried([1]), Tried([1], [1]), Tried([0]), Tried([0, 3], [0, 3]), rota_of([0] * 64))
    yield from samples().values()
    for n in 8, 11, 20, 21, 33, 64:
        yield side_by_side(source, n)
        yield side_by_side(source, n, broken=True)
    yield from (EveryCell(20, 3), EveryCell(64, 64))


def try_all(command):
    source = seeded(command.part)
    for k, rota in enumerate(rotas()):
        try_picture(command, rota, form(source, rota), k % 3 == 0)
    # what is refused, and what is no rota
    asked = Ask("draw")
    for data in b"", b"Co.\nx", b"ROTA", cases.spoiled(file_of(Tried([3])), 14), cases.rota([3, 7, 14]), b"." * 65:
        command.ask(asked, data)
        command.ask(asked, data, piped=True)
