#!/usr/bin/env python3
"""Computes the worked examples of docs/RULES.md from the library.

usage: tests/rules/run.py ROOT SHARED LISTING [--self-check]

ROOT is the repository, SHARED the library as a shared object, LISTING the listing program. What is expected comes from the document. Every example and
every table that it has is read; one that is not understood fails. With --self-check each number is changed in a copy of the document, and the test must
refuse the copy (self_check.py).
"""
import os
import sys

import examples
import files
import names
import order
import plan_numbers
import pricing
import prose
import refusals
import self_check
import sheets
import untallied
from document import Document, Wrong
from library import Library

# How many examples of each kind the document has. Another number fails.
EXAMPLES = {
    "example lines": 146,
    "columns of a sheet": 7,
    "lines of sheets": 16,
    "sets of Ryser's formula": 8,
    "beginnings of plans": 9,
    "lister calls": 9,
    "grade rules": 5,
    "graded rotas": 14,
    "rates": 15,
    "prices as sums": 4,
    "rows of a file's bytes": 11,
    "lines of T's dump": 5,
    "listings": 6,
    "refusals in C": 16,
    "pairs of tests": 362,
    "calls": 20,
    "sentences with numbers": 103,
    "words": 26,
    "rules linked": 37,
}


class Rules:
    """The checks over a document. Each gives (examples, answers compared)."""

    def __init__(self, root, shared, listing):
        self.root, self.header = root, os.path.join(root, "include", "rota.h")
        self.library, self.program, self.known = Library(shared), files.Program(listing), {}

    def checks(self):
        library = self.library
        return {
            "example lines": lambda doc: examples.lines(doc, library, files.Layout(doc).file_of, sheets.Columns(doc).sheet_of),
            "columns of a sheet": lambda doc: sheets.columns(doc, library),
            "lines of sheets": lambda doc: sheets.shown(doc, library),
            "sets of Ryser's formula": lambda doc: untallied.formula(doc, library),
            "beginnings of plans": lambda doc: plan_numbers.beginnings(doc, library, self.program),
            "lister calls": lambda doc: examples.lister(doc, library),
            "grade rules": lambda doc: pricing.grades(doc, library),
            "graded rotas": lambda doc: pricing.graded(doc, library),
            "rates": lambda doc: pricing.rates(doc, library),
            "prices as sums": lambda doc: pricing.worked(doc, library),
            "rows of a file's bytes": lambda doc: files.bytes_of_block(doc, library),
            "lines of T's dump": lambda doc: files.dump(doc, library)[1],
            "listings": lambda doc: files.listing(doc, self.program, files.dump(doc, library)[0]),
            "refusals in C": lambda doc: refusals.in_header(doc, self.header),
            "pairs of tests": lambda doc: order.order(doc, library, self.program, self.known),
            "calls": lambda doc: names.calls(doc, library, files.dump(doc, library)[0], self.root),
            "sentences with numbers": lambda doc: prose.prose(doc, library, self.program, self.header),
            "words": lambda doc: names.words(doc, self.root),
            "rules linked": lambda doc: names.links(doc, self.root),
        }

    def run(self, text):
        """All checks; what each read, by lines, and its figures."""
        doc, read, figures = Document(text), {}, {}
        for name, check in self.checks().items():
            before, doc.read = doc.read, set()
            figures[name] = check(doc)
            read[name] = doc.read
            doc.read = before | doc.read
            if figures[name][0] != EXAMPLES[name]:
                raise Wrong("%d %s, and there should be %d" % (figures[name][0], name, EXAMPLES[name]))
        if doc.unread():
            raise Wrong("no check has read: " + doc.unread()[0])
        return read, figures


def main():
    rules = Rules(*sys.argv[1:4])
    with open(os.path.join(sys.argv[1], "docs", "RULES.md"), encoding="utf-8") as page:
        text = page.read()
    try:
        read, figures = rules.run(text)
        for name, (number, compared) in figures.items():
            print("rules: %4d %s, %d compared" % (number, name, compared))
        if "--self-check" in sys.argv:
            self_check.self_check(rules, EXAMPLES, text, read)
    except Wrong as wrong:
        print("rules: docs/RULES.md: %s" % wrong)
        sys.exit(1)


if __name__ == "__main__":
    main()
