"""The edits of the public calls: what each changes, in which function of crate rota, and where the prover must refuse it."""
import re
from dataclasses import dataclass


class BadEdit(Exception):
    pass


@dataclass(frozen=True)
class Function:
    file: str
    name: str
    first_line: int
    last_line: int
    text: str

    @property
    def contract(self):
        return self.text.partition("\n{\n")[0]

    @property
    def exported(self):
        """Whether it is a public call, which crate rota_c exports under its name."""
        return self.text.startswith("pub fn rota_")

    @property
    def place(self):
        """The folder of its proof, below proofs/."""
        return self.file[len("src/"):-len(".rt")] + "/" + self.name

    def calls(self, other):
        return self != other and re.search(rf"\b{other.name}\(", self.text) is not None


@dataclass(frozen=True)
class Edit:
    label: str
    name: str
    function: Function
    # a file of crate rota, a text that it has once, and the text in its stead
    changes: tuple
    # a refusal at one of these is for this edit
    places: tuple


FUNCTION = re.compile(r'^((?:pub(?:\(crate\))? )?(?:extern "C" )?fn (\w+)(?:<.*?>)?\(.*?^\})$', re.M | re.S)


def functions_in(file, text):
    def line(place):
        return text.count("\n", 0, place) + 1

    return [Function(file, m[2], line(m.start()), line(m.end()), m[1]) for m in FUNCTION.finditer(text)]


def changed(texts, changes):
    """The texts of the files with the changes made."""
    texts = dict(texts)
    for file, old, new in changes:
        if not old or texts.get(file, "").count(old) != 1:
            raise BadEdit(f"an old text is not in {file}, or more than once")
        texts[file] = texts[file].replace(old, new)
    return texts


# ---- wrong answers

def wrong_answer(label, text, texts, functions):
    """An edit from its file's text: a 'file:' line holds for the pairs of 'old:' and 'new:' after it. It changes one function, and beside it
    only what stands outside of functions, as imports do."""
    file, old, changes = "", "", []
    for key, value in re.findall(r"^(file|old|new): ?(.*)$", text, re.M):
        if key == "file":
            file = value
        elif key == "old":
            old = value
        else:
            changes.append((file, old, value))
    try:
        changed(texts, changes)
    except BadEdit as why:
        raise BadEdit(f"wrong answer {label}: BAD EDIT: {why}") from None
    inside = set()
    for file, old, _ in changes:
        line = texts[file].count("\n", 0, texts[file].index(old)) + 1
        inside |= {f for f in functions if f.file == file and f.first_line <= line <= f.last_line}
    if len(inside) != 1:
        raise BadEdit(f"wrong answer {label}: BAD EDIT: it changes {len(inside)} functions, and not one")
    function = inside.pop()
    return Edit(label, f"wrong answer {label}", function, tuple(changes), (function.place,))


# ---- weaker contracts

def factors(proposition):
    """The factors of a proposition, cut at the × outside parentheses."""
    parts, depth = [""], 0
    for piece in re.split(r"( × |[()])", proposition):
        depth += {"(": 1, ")": -1}.get(piece, 0)
        if piece == " × " and depth == 0:
            parts.append("")
        else:
            parts[-1] += piece
    return parts


def same_contract(one, other):
    """Whether two functions are given, ask and promise the same, word for word; how the lines are laid out counts for nothing."""
    def words(f):
        return re.sub(r"\(\s+", "(", re.sub(r",?\s+\)", ")", f.contract[f.contract.index("fn "):])).split()

    return words(one) == words(other)


def weaker_clauses(clause, number, code):
    """Each factor of a clause, made to hold on success alone and on refusal alone: a label, what it is called, and the clause."""
    read = re.fullmatch(r"    ensures ((?:\w+ )?)\{ (.*) \}", re.sub(r"\n *", " ", clause))
    if not read:
        raise BadEdit(f"a clause that can't be read: {clause.strip()}")
    name, parts = read[1].strip() or str(number), factors(read[2])
    for k, part in enumerate(parts):
        label, words = (f"{name}-{k + 1}", f"{name} part {k + 1}") if len(parts) > 1 else (name, name)
        for way, weaker in ("success", f"({code} ≡ 0 → {part})"), ("refusal", f"(({code} ≡ 0 → ⊥) → {part})"):
            said = " × ".join(parts[:k] + [weaker] + parts[k + 1:])
            yield f"{label}-{way}", f"clause {words} only on {way}", f"    ensures {read[1]}{{ {said} }}"


def weaker_contracts(function, cited):
    """A call made to ask the impossible of its caller, which the call's field in `ask_nothing` of crate demands must miss; and each
    weaker clause, which the definitions `cited` of demands must miss."""
    call = function.name
    head, *clauses = re.split(r"\n(?=    ensures )", function.contract)
    code = "result" if head.endswith("-> u32") else "result.code"

    def edit(label, name, lines, places):
        change = function.file, function.contract, "\n".join(lines)
        return Edit(f"{call}-{label}", f"{call}, {name}", function, (change,), tuple(places))

    field = call[len("rota_"):]
    yield edit("requires", "a requires added", [head, "    requires { ⊥ }", *clauses], [f"ask_nothing.{field}"])
    for k, clause in enumerate(clauses):
        for label, name, weaker in weaker_clauses(clause, k + 1, code):
            yield edit(label, name, [head, *clauses[:k], weaker, *clauses[k + 1:]], cited)


# ---- what one check can try

def reached(function, functions):
    """The function, those that it calls, those that they call, and so on."""
    found, left = {function}, [function]
    while left:
        f = left.pop()
        more = {g for g in functions if f.calls(g)} - found
        found |= more
        left += more
    return found


def clash(one, other, functions):
    """Whether a refusal of one edit could be for the other or hide it, as a call that is not proved does to its callers; or both change
    the same text."""
    f, g = one.function, other.function
    same = {change[:2] for change in one.changes} & {change[:2] for change in other.changes}
    return f in reached(g, functions) or g in reached(f, functions) or bool(same)


def fits(edit, batch, texts, functions):
    try:
        changed(texts, [change for other in [*batch, edit] for change in other.changes])
    except BadEdit:
        return False
    return not any(clash(edit, other, functions) for other in batch)


def batches(edits, texts, functions):
    """The edits, each in the first batch that it fits in."""
    made = []
    for edit in edits:
        place = next((batch for batch in made if fits(edit, batch, texts, functions)), None)
        if place is None:
            made.append([edit])
        else:
            place.append(edit)
    return made
