r"""Download rotas and their complete plans, answered by the shared library of ``rota.h``.

The rules are those of docs/RULES.md. Rota T of these rules, as a text:

>>> from rota import Rota
>>> t = Rota.from_text('''
... Co.   # item 0: slot 0 is open and a callout, slot 1 is open, slot 2 is closed
... ooo
... .oC
... ''')
>>> for plan in t.plans():
...     print(plan)
0 1 2 / 2
0 2 1 / 1
1 0 2 / 1
>>> t.count(), t.grade(), t.price(vehicles=100)
(3, 3, 33000)

The library is loaded at the first call: $ROTA_LIBRARY, a path, if it is set; else ``librota.so.1`` where the system's loader finds it; else that file beside
these modules, or in the ``lib`` folder that they are installed below. Pictures are drawn by the command ``rota``: $ROTA_COMMAND, or the one on the PATH. Where
one of them is missing an OSError says so.

A rota never changes, so threads may share it; each iterator of plans is for one thread at a time.
"""
from ._plan import Plan
from ._refused import Code, Refused
from ._rota import Rota
from ._text import TextError

__all__ = ["Code", "Plan", "Refused", "Rota", "TextError"]
