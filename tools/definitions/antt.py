"""Reads the files of specs/: definitions by module and name, as trees.

A tree is a tuple whose first item says what it is: ("name", n), ("number", n), ("text", s), ("call", f, args), ("op", sign, a, b),
("if", c, a, b), ("let", name, value, body), ("fun", names, body), ("tuple", items), ("record", base or None, fields), a field
("set", name, value), ("part", tree, name) for what follows a dot, and in types and propositions ("bind", names, type).
"""
import functools
import os
import re
from typing import NamedTuple, Optional

# The type of rows of tokens.
ROW = ("call", ("name", "List"), (("name", "Decorated"),))
TOKEN = re.compile(r'"(?:[^"\\]|\\.)*"|\[\]|[(){}\[\],;]|[^\s(){}\[\],;"]+')
COMMENT = re.compile(r"(^|\s)(--|//).*")
USE = re.compile(r" *(?:pub |unfoldable )*use ([^\s{;]+?)(?:\.\{([^}]*)\}| as ([^\s;]+))?;?")
MODULE = re.compile(r"module _ (.*) where")
HEAD = re.compile(r"(?:(?:pub|abbrev|unfoldable|opaque) )*(?:(data|record) )?(\S+) (.*)", re.S)
# The binding of signs, weaker ones first; `r` leans to the right.
BINDING = {"→": (0, "r"), "↔": (1, "r"), "⊎": (2, "r"), "×": (3, "r"), "≡": (4, ""), "∷": (5, "r"), "++": (5, "r")}
BINDING |= {"·": (6, "r"), "+": (7, "l"), "-": (7, "l"), "∪": (8, "r"), "⋄": (9, "r"), "||": (10, "l"), "&&": (11, "l")}
BINDING |= {"==": (12, ""), "<": (12, ""), "≤": (12, ""), "*": (13, "l"), "^": (14, "r")}
ENDS = {")", "}", "]", ",", ";", "then", "else", "in", "where", "="}


class Unread(Exception):
    """What can't be read or computed, and where."""


class Names(tuple):
    """Names in a tree, which are no trees."""


class Definition(NamedTuple):
    """A function or a relation by its equations, or the constructors of `data`, or the fields of a `record`.

    `given` are the names that it gets from the modules around it; the parameters of `data` and `record` are in `names`.
    """

    module: str
    name: str
    kind: str
    given: tuple
    names: tuple
    type: tuple
    parts: list


class Reader:
    """Reads trees from words."""

    def __init__(self, text):
        self.words, self.at = TOKEN.findall(text), 0

    def peek(self, ahead=0):
        return self.words[self.at + ahead] if self.at + ahead < len(self.words) else None

    def next(self, wanted=None):
        word = self.peek()
        if word is None or wanted not in (None, word):
            raise Unread(f"{wanted or 'more'} is missing after {' '.join(self.words[: self.at])}")
        self.at += 1
        return word

    def whole(self):
        tree = self.tree()
        if self.peek() is not None:
            raise Unread(f"{self.peek()} is not read in {' '.join(self.words)}")
        return tree

    def tree(self, least=0):
        left = self.calls()
        while self.peek() in BINDING and BINDING[self.peek()][0] >= least:
            sign = self.next()
            strength, lean = BINDING[sign]
            left = ("op", sign, left, self.tree(strength if lean == "r" else strength + 1))
        return left

    def calls(self):
        word = self.peek()
        if word == "λ":
            return self.function()
        if word == "if":
            self.next()
            test = self.tree()
            self.next("then")
            first = self.tree()
            self.next("else")
            return ("if", test, first, self.tree(5))
        if word == "let":
            self.next()
            name = self.next()
            self.next("=")
            value = self.tree()
            self.next("in")
            return ("let", name, value, self.tree())
        head, args = self.atom(), []
        while (word := self.peek()) is not None and word not in ENDS and word not in BINDING:
            args.append(self.calls() if word in ("λ", "if") else self.atom())
        return ("call", head, tuple(args)) if args else head

    def function(self):
        self.next("λ")
        names = []
        while not names or not names[-1].endswith("."):
            names.append(self.next())
        names[-1] = names[-1][:-1]
        return ("fun", Names(it for it in names if it), self.tree())

    def is_binder(self):
        ahead = 0
        while (word := self.peek(ahead)) not in (None, ":", "(", "{", *ENDS, *BINDING):
            ahead += 1
        return ahead > 0 and word == ":"

    def binder(self, close):
        names = []
        while self.peek() != ":":
            names.append(self.next())
        self.next(":")
        kind = self.tree()
        self.next(close)
        return ("bind", Names(names), kind)

    def atom(self):
        word = self.next()
        if word == "(" and self.is_binder():
            return self.binder(")")
        if word == "{":
            while self.next() != "}":
                pass
            return ("implicit",)
        if word == "(":
            items = [self.tree()]
            while self.peek() == ",":
                self.next()
                items.append(self.tree())
            self.next(")")
            tree = items[0] if len(items) == 1 else ("tuple", tuple(items))
        elif word == "record":
            tree = self.record()
        elif word[0] == '"':
            tree = ("text", word[1:-1])
        elif word[0].isdigit():
            tree = ("number", int(word, 0))
        else:
            tree = ("name", word)
        while re.fullmatch(r"\.\w+", self.peek() or ""):
            tree = ("part", tree, self.next()[1:])
        return tree

    def record(self):
        base = None if self.peek() == "{" else self.atom()
        self.next("{")
        fields = []
        while self.peek() != "}":
            name = self.next()
            self.next("=")
            fields.append(("set", name, self.tree()))
            if self.peek() == ";":
                self.next()
        self.next("}")
        return ("record", base, tuple(fields))


def walk(tree):
    """All trees in a tree."""
    if isinstance(tree, tuple) and not isinstance(tree, Names):
        if tree and isinstance(tree[0], str):
            yield tree
        for part in tree:
            yield from walk(part)


def alternatives(tree):
    """The alternatives of a proposition, each as the goals that it consists of."""
    if tree[:2] == ("op", "⊎"):
        return alternatives(tree[2]) + alternatives(tree[3])
    if tree[:2] == ("op", "×"):
        return [a + b for a in alternatives(tree[2]) for b in alternatives(tree[3])]
    if tree in (("name", "⊥"), ("name", "⊤")):
        return [[]] * (tree[1] == "⊤")
    return [[("bind", Names([name]), it) for name, it in binds(tree)] or [tree]]


def arguments(kind):
    """The types that a type takes, and what it ends in."""
    taken = []
    while kind[:2] == ("op", "→"):
        if bound := binds(kind[2]):
            taken += [it for _, it in bound]
        elif kind[2] != ("implicit",):
            taken.append(kind[2])
        kind = kind[3]
    return taken, kind


def binds(tree):
    """The names of (x y : T) (z : U), with their types."""
    parts = [tree[1], *tree[2]] if tree[0] == "call" else [tree]
    return [(name, it[2]) for it in parts for name in it[1]] if all(it[0] == "bind" for it in parts) else []


def binders(text):
    """The parameters of a head, as their names and types."""
    reader, found = Reader(text), []
    while reader.peek() == "(":
        found += binds(reader.atom())
    return tuple(found), " ".join(reader.words[reader.at :])


class File:
    """What a file of specs/ defines, and where its other names come from."""

    def __init__(self, module, path):
        self.module, self.path = module, path
        self.definitions, self.constructors, self.uses, self.aliases = {}, {}, {}, {}
        with open(path, encoding="utf-8") as it:
            lines = [COMMENT.sub("", line).rstrip() for line in it.read().split("\n")]
        for item, given in self.items(line for line in lines if line):
            try:
                self.add(item, given)
            except Unread as error:
                raise Unread(f"{path}: {error}") from None

    def items(self, lines):
        """The items of the file, each with the names that the modules around it give."""
        modules, item, given = [], "", ()
        for line in lines:
            margin = len(line) - len(line.lstrip())
            inner = line.strip()
            base = 2 * len(modules)
            if margin > base or inner.startswith("}"):
                item += "\n" + line[base:]
                continue
            if item:
                yield item, given
            modules = modules[: margin // 2]
            given = sum(modules, ())
            item = inner
            found = MODULE.fullmatch(inner)
            if found or inner in ("mutual", "abbrev mutual"):
                modules, item = [*modules, tuple(it for it, _ in binders(found[1])[0]) if found else ()], ""
        if item:
            yield item, given

    def add(self, item, given):
        if use := USE.fullmatch(item):
            self.add_use(*use.groups())
        elif not item.startswith(("infix", "pub mod", "mod ")):
            head = HEAD.fullmatch(item)
            if head and head[1]:
                self.add_data(head[1], head[2], head[3], given)
            elif head and head[3].startswith(": "):
                self.definitions[head[2]] = Definition(self.module, head[2], "equations", given, (), Reader(head[3][2:]).whole(), [])
            else:
                self.add_equation(item)

    def add_use(self, module, names, alias):
        if alias:
            self.aliases[alias] = module
        elif names is None:
            module, _, names = module.rpartition(".")
            self.aliases[names] = f"{module}.{names}"
        for name in (names or "").split(","):
            name, _, other = name.strip().partition(" as ")
            self.uses[other or name] = module, name

    def add_data(self, kind, name, rest, given):
        head, _, lines = rest.partition(" where")
        names, head = binders(head)
        lines = re.split(r"\n  (?! )", lines)[1:]
        parts = []
        for line in lines:
            part, _, its_type = line.partition(" : ")
            parts += [(it, Reader(its_type).whole()) for it in part.removeprefix("pub ").split()]
        its_type = Reader(head.removeprefix(":")).whole()
        self.definitions[name] = Definition(self.module, name, kind, given, names, its_type, parts)
        if kind == "data":
            self.constructors |= {it: len(arguments(its_type)[0]) for it, its_type in parts}

    def add_equation(self, item):
        """An equation: what is to the left of `=` is the name with patterns, or a sign between two."""
        reader = Reader(item)
        left = reader.tree()
        reader.next("=")
        body = reader.whole()
        args = ()
        if left[0] == "call":
            left, args = left[1:]
        if left[0] == "op":
            left, args = ("name", f"◌{left[1]}◌"), (left[2], left[3], *args)
        self.definitions[left[1]].parts.append((args, body))


class Specs:
    """The files of specs/ of a repository."""

    def __init__(self, top):
        self.top, self.file = top, functools.lru_cache(None)(self.read)

    def read(self, module) -> Optional[File]:
        """The file of a module, if it is one of the repository."""
        found = re.fullmatch(r"Rattle\.(\w+)\.specs\.([\w.]+)", module)
        path = found and f"{self.top}/crates/{found[1]}/specs/{found[2].replace('.', '/')}.antt"
        return File(module, path) if path and os.path.isfile(path) else None

    def find(self, file, name):
        """What a name in a file is: a Definition, ("constructor", name, arity), or ("outside", name) of the kit or the code."""
        if name in file.definitions:
            return file.definitions[name]
        if name in file.constructors:
            return "constructor", name, file.constructors[name]
        module, inner = file.uses.get(name, (None, name))
        if "." in name:
            alias, _, inner = name.partition(".")
            # (a case of an enum of the code is named after its type)
            module = file.aliases.get(alias) or file.uses.get(alias, (None,))[0]
        other = module and self.file(module)
        return self.find(other, inner) if other else ("outside", inner, module)
