"""tests/header/layout.h: the layout of each record, which is worked out there by hand."""
import re

import c_text
from places import Compared, Piece, squeezed

LAYOUT = "tests/header/layout.h"


def layouts(texts):
    found = re.finditer(r"^SIZE\((rota_\w+), \d+\);\n(?:FIELD\(.*\);\n)*", texts[LAYOUT], re.M)
    return [Piece(record[1], squeezed(record[0]), *record.span()) for record in found]


def layouts_wanted(manifest, _):
    found = []
    for record in manifest.records.values():
        size, _, places = c_text.layout(manifest, record)
        fields = "".join(f" FIELD({record.symbol}, {name}, {at}, {length});" for name, at, length in places)
        found.append((record.symbol, f"SIZE({record.symbol}, {size});{fields}"))
    return found


PLACES = [Compared(LAYOUT, "layouts", layouts, layouts_wanted)]
