"""What the definitions in specs/ say about a text: its output, or its refusal.

Nothing of the code is read, nor does the prover take part. Definitions are read (antt.py) and made to functions of Python
(functions.py, goals.py, rows.py). Only the words of the kit are here in Python (words.py), and three searches for what definitions
only say that it is there: the units of a text, the cuts of a text at its strings and comments, and what tokens a list of the grammar
can begin with.
"""
import re
import sys
import threading

from .antt import Unread
from .functions import Code
from .rows import END, OPEN, Data, chain
from .words import WORDS

TOKENS, WRITTEN = "Rattle.cedar_tokens.specs", "Rattle.cedar_written.specs"
CLEANING, GRAMMAR = "Rattle.cedar_layout.specs.Cleaning", "Rattle.cedar_grammar.specs.Texts"
QUOTE, SLASH = 34, 47
# What the program says of a refusal.
WORDS_OF = {
    "UnknownCharacter": "unknown character",
    "UnfinishedString": "unfinished string",
    "NumberTooLarge": "number too large",
    "Grammar": "not in the grammar",
    "TooDeep": "nested too deeply",
    "NotUtf8": "not UTF-8",
}
# How many bytes after its letters and digits a unit ends at most, unless it begins with a quote or a slash.
BEYOND = 6
# The deepest recursion, and the stack for it.
DEEPEST, STACK = 1_000_000, 1 << 29


class Definitions:
    """The definitions in the specs/ of a repository."""

    def __init__(self, top):
        own = {"Scans": self.scans, "BeginsNoUnit": self.begins_no_unit, "Begins": self.begins, "Cut": self.cuts}
        self.code = Code(top, WORDS, own)
        self.get, self.kept = self.code.get, {}

    # ---- what a definition says that there is

    def unit_at(self, text):
        """The size of the longest unit at the start of a text, or 0."""
        most = len(text)
        if text and text[0] not in (QUOTE, SLASH):
            most = min(most, len(re.match(rb"[?\w]*", bytes(text), re.A)[0]) + BEYOND)
        return next((size for size in range(most, 0, -1) if self.is_unit(text[:size])), 0)

    def is_unit(self, text):
        if text not in self.kept:
            self.kept[text] = any(self.get(f"{TOKENS}.Units", "IsUnit", "test")(text))
        return self.kept[text]

    def units(self, text):
        """The units of a text, up to where none begins, and the rest of it."""
        if ("units", text) not in self.kept:
            found, left = [], text
            while size := self.unit_at(left):
                found.append(left[:size])
                left = left[size:]
            self.kept["units", text] = tuple(found), left
        return self.kept["units", text]

    def scans(self, units, text, rest):
        """Scans: units one after the other at the start of a text, and the rest."""
        found, left = self.units(text)
        size = len(text) - len(rest)
        ends = [sum(map(len, found[:at])) for at in range(len(found) + 1)]
        if text[size:] == rest and size in ends and units in (None, found[: ends.index(size)]):
            yield found[: ends.index(size)]

    def begins_no_unit(self, text):
        """BeginsNoUnit: no unit begins there."""
        if not self.unit_at(text):
            yield True

    def cuts(self, text, joined):
        """Cut: the pieces between strings and comments, by the constructors."""
        kept, at = self.get(CLEANING, "IsKept", "test"), 0
        while at < len(text):
            if text[at] in (QUOTE, SLASH):
                size = next((it for it in range(len(text) - at, 0, -1) if any(kept(text[at : at + it]))), 0)
                if size:
                    piece, string, rest = text[:at], text[at : at + size], text[at + size :]
                    for cleaned in self.cuts(rest, None):
                        yield from self.constructed("more_pieces", joined, m=piece, s=string, r=rest, y=cleaned)
                    return
            at += 1
        yield from self.constructed("last_piece", joined, m=text)

    def constructed(self, name, joined, **values):
        """What a constructor of Cut says that the cleaned text is."""
        made = self.code.constructed(CLEANING, "Cut", name)(**values)
        if joined in (None, made):
            yield made

    def begins(self, depth, front):
        """Begins: a list of the grammar begins with these tokens, at a depth, or at some depth."""
        # (so many tokens nest no deeper)
        deepest = self.greatest_depth + len(front) if depth is None else depth
        if OPEN in self.ends(deepest, self.row(front, OPEN)):
            yield deepest

    def row(self, tokens, end):
        """A row of tokens without comments."""
        return chain(tuple(map(self.get(f"{WRITTEN}.Texts", "without_comments"), tokens)), end)

    def ends(self, depth, start):
        """Where rows of policies end that begin at a cell."""
        policies = self.code.rel(self.get(f"{WRITTEN}.Written", "PolicySet", "relation"), 0, depth)
        return [end for end, _ in self.code.rows_open(policies, start)]

    def read(self, tokens):
        """How many tokens at least one row of a relation ends after, of all that the search for policies looks for."""
        cell = self.row(tokens, END)
        self.ends(self.greatest_depth, cell)
        reached = {end for found in self.code.rows_open.kept.values() for end, _ in found}
        most = 0
        for at in range(1, len(tokens) + 1):
            cell = cell.next
            most = at if cell in reached else most
        return most

    # ---- what is asked

    @property
    def greatest_depth(self):
        return self.get(GRAMMAR, "greatest_depth")()

    def output(self, text, width, indent):
        """The output of a text, as bytes; None if it has none."""
        found = set(self.get(f"{WRITTEN}.Output", "IsOutputOf", "last")(width, indent, tuple(text)))
        self.forget()
        if len(found) > 1:
            raise Unread(f"{len(found)} outputs of {text!r}")
        return bytes(*found) if found else None

    def accepts(self, text):
        """Whether a text is accepted."""
        found = any(self.get(f"{WRITTEN}.Texts", "Accepted", "test")(tuple(text)))
        self.forget()
        return found

    def refusal(self, text):
        """The name of the refusal of a text, and its byte; None if nothing that is tried is right."""
        text = tuple(text)
        refuses = self.get(f"{WRITTEN}.Refusals", "Refuses", "test")
        found = next(((name, at) for name, at in self.candidates(text) if any(refuses(text, Data(name, (at,))))), None)
        self.forget()
        return found

    def candidates(self, text):
        """The refusals that may be right."""
        units, rest = self.units(text)
        ends = [sum(map(len, units[:at])) for at in range(len(units) + 1)]
        if rest:
            return [(name, ends[-1]) for name in ("UnknownCharacter", "UnfinishedString")]
        is_token, is_number = (self.get(f"{TOKENS}.Units", it) for it in ("is_token", "is_number"))
        starts = [start for start, unit in zip(ends, units) if is_token(unit)]
        tokens = [unit for unit in units if is_token(unit)]
        # (after a token that is read no relation need end, as after `{`)
        places = [*starts, len(text)][self.read(tokens) :]
        numbers = [("NumberTooLarge", start) for start, unit in zip(starts, tokens) if is_number(unit)]
        return numbers + [(name, place) for place in places for name in ("Grammar", "TooDeep")]

    def forget(self):
        """Forgets what was found for a text."""
        for rows in (self.code.rows, self.code.rows_open):
            rows.forget()
        for end in (END, OPEN):
            end.before.clear()
        self.kept.clear()


def with_stack(work):
    """Does work with room for deep recursion."""
    found = []
    sys.setrecursionlimit(DEEPEST)
    threading.stack_size(STACK)
    thread = threading.Thread(target=lambda: found.append(work()))
    thread.start()
    thread.join()
    if not found:
        raise SystemExit(2)
    return found[0]
