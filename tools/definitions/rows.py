"""What definitions are about, in Python: what constructors make, records, rows of tokens, and relations of rows.

Lists are tuples, records are named tuples, and what a constructor makes is a Data. A row of tokens is a chain of cells; where it
goes on with tokens that nobody knows it has the cell OPEN as its end. A relation of rows with its first arguments is a Rel.
"""
import collections
import functools
from typing import NamedTuple

from .antt import Unread


class Data(NamedTuple):
    """What a constructor makes."""

    name: str
    args: tuple


@functools.lru_cache(None)
def record(*names):
    return collections.namedtuple("record", names)


class Unknown(Exception):
    """Something about a token that nobody knows was asked."""


class AnyToken:
    """A token that nobody knows."""

    def __getattr__(self, name):
        raise Unknown


class Cell:
    """A row of tokens: the first, and the row after it."""

    __slots__ = "token", "next", "before"

    def __init__(self, token, rest):
        self.token, self.next, self.before = token, rest, {}

    def after(self, token):
        """The row that begins with a token and goes on with this one; the same each time."""
        if token not in self.before:
            self.before[token] = Cell(token, self)
        return self.before[token]


END, OPEN = Cell(None, None), Cell(AnyToken(), None)
OPEN.next = OPEN


def chain(tokens, end):
    """A row of tokens."""
    for token in reversed(tokens):
        end = end.after(token)
    return end


def taken(start, end):
    """The tokens from a cell to another."""
    found = []
    while start is not end:
        found.append(start.token)
        start = start.next
    if end is OPEN:
        raise Unknown
    return tuple(found)


def possible(test):
    """Whether a test passes, or could with tokens that nobody knows."""
    try:
        return test()
    except Unknown:
        return True


def token_or_any(make):
    """A token, or one that nobody knows if it is made of one."""
    try:
        return make()
    except Unknown:
        return OPEN.token


def holds(found):
    """Whether a search finds something."""
    return any(True for _ in found)


class Relation:
    """A relation of rows: how rows are searched that it has, or else what Rel it is unfolded to."""

    def __init__(self, name):
        self.name, self.search, self.search_open, self.unfold = name, None, None, None


class Rel:
    """A relation of rows with its first arguments."""

    def __init__(self, relation, args):
        self.relation, self.args = relation, args

    @functools.cached_property
    def unfolded(self):
        return self.relation.unfold(*self.args)


class Rows:
    """Where the rows of a Rel end that begin at a cell, each with what it is related to. What was found is kept.

    With `is_open` what they are related to is None: documents aren't asked for.
    """

    def __init__(self, is_open):
        self.way, self.kept = "search_open" if is_open else "search", {}

    def __call__(self, its, start):
        key = its, start
        if key not in self.kept:
            self.kept[key] = None
            if its.relation.unfold:
                self.kept[key] = self(its.unfolded, start)
            else:
                found = {}
                for it in getattr(its.relation, self.way)(*its.args, start):
                    found[it] = None
                self.kept[key] = tuple(found)
        elif self.kept[key] is None:
            # (what is asked for again at OPEN, on the way to its answer, adds nothing to it)
            if start is not OPEN:
                raise Unread(f"{its.relation.name} begins with itself")
            return ()
        return self.kept[key]

    def forget(self):
        """Forgets what was found in rows of known tokens."""
        self.kept = {key: it for key, it in self.kept.items() if key[1] is OPEN}
