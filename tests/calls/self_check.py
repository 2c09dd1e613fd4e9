"""Shows that the comparison can fail: in copies of the texts each call is left out or changed, place by place, and the place must tell the call and the file. A call
and a record that stand in the manifest alone must be told by every place, and no line of the manifest may be left out.
"""
from manifest import Wrong, read

# A call that nobody has, with an output and a record of its own, so that every place misses it.
NEW = """
record no_such_answer
    code: u32
    count: u64

call no_such_call: no_such_answer
    in plans
    takes TABLES, tally: &mut words
    tests TABLES 5 6
    answers count
    writes 2 to the power n words of the tally
    gives nothing
"""
NEW_GROUP = """
group NONE
    takes no_such: size
    tests 1

"""


class Unseen(Exception):
    """A change that the comparison does not find."""


def told(said, *words):
    return any(all(word in line for word in words) for line in said)


def changed(place, manifest, texts):
    """How many copies with one change were told by their place."""
    tried = 0
    for name, copy in place.changes(manifest, texts):
        if not told(place.differences(manifest, {**texts, place.path: copy}), name, place.path):
            before = next(at for at in range(len(copy) + 1) if copy[at:at + 1] != texts[place.path][at:at + 1])
            raise Unseen(f"{place.path}, {place.what}: a change of {name} is not found, after '{copy[max(0, before - 60):before]}'")
        tried += 1
    if not tried:
        raise Unseen(f"{place.path}, {place.what}: nothing was changed")
    return tried


def missing(place, page, texts):
    """The place tells what the manifest alone has."""
    more = read(page.replace("\ngroup ", f"{NEW_GROUP}group ", 1) + NEW)
    said = place.differences(more, texts)
    names = ("rota_no_such_call", "rota_no_such_answer", "NONE", "the number of calls")
    if not any(told(said, name, place.path) for name in names):
        raise Unseen(f"{place.path}, {place.what}: that a call is missing is not told: {said}")


def shorter(places, page, texts):
    """How many lines the manifest has. Without any of them it can't be read, or some place differs."""
    lines, tried = page.split("\n"), 0
    for at, line in enumerate(lines):
        if line and not line.startswith("#"):
            try:
                copy = read("\n".join(lines[:at] + lines[at + 1:]))
            except Wrong:
                copy = None
            if copy and not any(place.differences(copy, texts) for place in places):
                raise Unseen(f"calls.txt:{at + 1}: nothing tells that this line is left out: {line.strip()}")
            tried += 1
    return tried


def self_check(places, page, texts):
    """How many changes were made and found."""
    manifest = read(page)
    for place in places:
        missing(place, page, texts)
    return sum(changed(place, manifest, texts) for place in places) + shorter(places, page, texts)
