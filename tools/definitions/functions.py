"""Makes Python functions of definitions: of functions to compute, and of relations to search.

A function is its equations, tried in order. A relation is searched in one of three ways:

- as `relation` if it is one of rows of tokens and something: from a cell on, where a row that it has ends, and what the row is
  related to;
- as `last` otherwise: what it relates its other arguments to;
- as `test` otherwise: whether it holds.
"""
import collections
import functools
import itertools
import re

from .antt import ROW, Definition, Names, Specs, Unread, alternatives, arguments, binds, walk
from .goals import Search
from .rows import END, Data, Rel, Relation, Rows, chain, holds, possible, record, taken, token_or_any

TYPES = {"List", "ℕ", "ℤ", "Bool", "String", "Option"}
SIGNS = {"∷": "({}, *{})", "++": "({} + {})", "+": "({} + {})", "-": "max({} - {}, 0)", "^": "({} ** {})", "*": "({} * {})"}
SIGNS |= {"==": "({} == {})", "≡": "({} == {})", "↔": "({} == {})", "<": "({} < {})", "≤": "({} <= {})"}
SIGNS |= {"&&": "({} and {})", "×": "({} and {})", "||": "({} or {})", "⊎": "({} or {})"}
VALUES = {"[]": "()", "true": "True", "false": "False", "zero": "0", "⊤": "True", "⊥": "False"}
NUMBERS = {"suc": "({} + 1)", "pos": "{}", "negsuc": "(-{} - 1)"}
# How a number is taken apart: the test, and what is inside.
INSIDE = {"suc": ("> 0", "({} - 1)"), "pos": (">= 0", "{}"), "negsuc": ("< 0", "(-{} - 1)")}


class Code:
    """The Python functions of the definitions of a repository.

    `words` are those of the kit; `own` has the searches that stand for relations which only say that something is there.
    """

    def __init__(self, top, words, own):
        self.specs, self.words, self.own = Specs(top), words, own
        self.rows, self.rows_open = Rows(False), Rows(True)
        self.space = {f"w_{name}": it for name, it in words.items()} | {f"own_{name}": it for name, it in own.items()}
        self.space |= {it.__name__: it for it in (Data, Unread, chain, holds, possible, record, taken, token_or_any)}
        self.space |= {"END": END, "rel": self.rel, "rows": self.rows, "rows_open": self.rows_open}
        self.space |= {"partial": functools.partial, "cached": functools.lru_cache(None)}
        self.names, self.left, self.rels, self.numbers = {}, [], {}, itertools.count()

    def get(self, module, name, way="value"):
        """The Python function of a definition, or its Relation."""
        named = self.name(self.specs.file(module).definitions[name], way)
        self.write_left()
        return self.space[named]

    def rel(self, relation, *args):
        """A relation of rows with its first arguments; the same each time."""
        key = relation, *args
        if key not in self.rels:
            self.rels[key] = Rel(relation, args)
        return self.rels[key]

    def constructed(self, module, name, part):
        """The function that gives the last argument of what a constructor of `data` says, from what the constructor has."""
        file, named = self.specs.file(module), f"made_{part}"
        if named not in self.space:
            kind, names = dict(file.definitions[name].parts)[part], []
            while kind[:2] == ("op", "→"):
                names += [it for it, _ in binds(kind[2])]
                kind = kind[3]
            writer = Writer(self, file, file.definitions[name])
            writer.put(f"def {named}({', '.join(names)}):")
            writer.put(f"return {writer.value(kind[2][-1], dict(zip(names, names)))}")
            writer.end()
            self.write_left()
        return self.space[named]

    def name(self, definition, way):
        """The name of the Python function of a definition; what isn't written yet is left to be written."""
        key = definition.module, definition.name, way
        if key not in self.names:
            self.names[key] = f"{way}_{re.sub(r'[^0-9A-Za-z_]', '_', definition.name)}_{next(self.numbers)}"
            self.left.append((definition, way))
            if way == "relation":
                self.space[self.names[key]] = Relation(definition.name)
        return self.names[key]

    def write_left(self):
        """Writes what is left to be written."""
        while self.left:
            definition, way = self.left.pop()
            writer = Writer(self, self.specs.file(definition.module), definition)
            getattr(writer, f"write_{way}")(self.names[definition.module, definition.name, way])

    def takes(self, definition):
        """The types of what a definition takes, without what modules give it, and whether it is a relation."""
        types, end = arguments(definition.type)
        types = [it for _, it in definition.names] + types
        while end[0] == "name" and end[1] not in TYPES:
            found = self.specs.find(self.specs.file(definition.module), end[1])
            if not isinstance(found, Definition) or found.kind != "equations" or found.type[:2] != ("call", ("name", "Type")):
                break
            more, end = arguments(found.parts[0][1])
            types += more
        return types, end[:2] == ("call", ("name", "Type"))

    def is_of_rows(self, definition):
        """Whether a definition is a relation of rows and something."""
        types, is_relation = self.takes(definition)
        return is_relation and len(types) > 1 and types[-2] == ROW


class Writer:
    """Writes the Python functions of one definition. A scope has the Python expression of each name."""

    def __init__(self, code, file, definition):
        self.code, self.file, self.definition = code, file, definition
        self.types = code.takes(definition)[0]
        self.lines, self.depth, self.others, self.numbers = [], 0, [], itertools.count()

    # ---- lines

    def put(self, line):
        self.lines.append("    " * self.depth + line)
        self.depth += line.endswith(":")

    def end(self):
        exec("\n".join([*self.others, *self.lines]), self.code.space)  # pylint: disable=exec-used
        self.lines, self.depth = [], 0

    def fresh(self):
        return f"v{next(self.numbers)}"

    def begin(self, name, count):
        """The head of a function with so many arguments after those that modules give, their scope, and the arguments."""
        scope = {it: self.fresh() for it in self.definition.given}
        args = [self.fresh() for _ in range(count)]
        self.put(f"def {name}({', '.join([*scope.values(), *args])}):")
        return scope, args

    # ---- functions

    def write_value(self, name):
        count = len(self.definition.parts[0][0])
        if not self.definition.given and not count:
            self.put("@cached")
        given, args = self.begin(name, count)
        for patterns, body in self.definition.parts:
            depth, scope = self.depth, self.matched(patterns, args, given)
            self.put(f"return {self.shared(body, scope)}")
            self.depth = depth
        self.put(f"raise Unread('no equation of {self.definition.name} fits')")
        self.end()

    def shared(self, body, scope):
        """The value of a body, in which a call that stands there twice is made once."""
        calls = collections.Counter(it for it in walk(body) if it[0] == "call")
        inside = {part for it in walk(body) if it[0] in ("fun", "let") for part in walk(it)}
        for call, times in calls.items():
            if times > 1 and call not in inside:
                name = self.fresh()
                self.put(f"{name} = None")
                scope[call] = f"({name} if {name} is not None else ({name} := {self.value(call, scope)}))"
        return self.value(body, scope)

    # ---- patterns

    def matched(self, patterns, values, given):
        """The scope with the names of patterns, after lines that go on if the values fit."""
        scope = dict(given)
        for pattern, value in zip(patterns, values):
            self.match(pattern, value, scope)
        return scope

    def match(self, pattern, value, scope):
        """Lines that go on if a value fits a pattern, for each way in which it does."""
        head, args = pattern[1:] if pattern[0] == "call" else (pattern, ())
        if pattern[:2] == ("op", "∷"):
            self.put(f"if {value}:")
            self.match(pattern[2], f"{value}[0]", scope)
            self.match(pattern[3], f"{value}[1:]", scope)
        elif pattern[:2] == ("op", "++"):
            at = self.fresh()
            self.put(f"for {at} in range(len({value}) + 1):")
            self.match(pattern[2], f"{value}[:{at}]", scope)
            self.match(pattern[3], f"{value}[{at}:]", scope)
        elif head[0] == "name" and head[1] in INSIDE:
            test, inside = INSIDE[head[1]]
            self.put(f"if {value} {test}:")
            self.match(args[0], inside.format(value), scope)
        elif head[0] == "name" and self.is_constructor(head[1]):
            self.put(f"if {value}.name == {head[1].rpartition('.')[2]!r}:")
            for at, arg in enumerate(args):
                self.match(arg, f"{value}.args[{at}]", scope)
        elif head == ("name", "encode_utf8") and args[0][1] not in scope:
            scope[args[0][1]] = self.fresh()
            self.put(f"for {scope[args[0][1]]} in w_decoded({value}):")
        elif pattern[0] == "name" and pattern[1] not in scope and pattern[1] not in VALUES:
            if pattern[1] != "_":
                scope[pattern[1]] = self.fresh()
                self.put(f"{scope[pattern[1]]} = {value}")
        else:
            self.put(f"if {value} == {self.value(pattern, scope)}:")

    def is_constructor(self, name):
        found = self.code.specs.find(self.file, name)
        if isinstance(found, Definition) or name in VALUES:
            return False
        return found[0] == "constructor" or (found[2] is not None and not {found[1]} & {*self.code.words, *VALUES, *NUMBERS})

    def makes(self, name):
        """Whether a value can be taken apart into what it was made of by this word."""
        return name in INSIDE or name == "encode_utf8" or self.is_constructor(name)

    def is_free(self, name):
        """Whether a name in a pattern stands for whatever is there."""
        return name not in VALUES and not self.is_constructor(name)

    # ---- values

    def value(self, tree, scope):
        """The Python expression of a tree."""
        return scope[tree] if tree in scope else getattr(self, f"value_of_{tree[0]}")(tree, scope)

    def value_of_number(self, tree, _):
        return str(tree[1])

    def value_of_text(self, tree, _):
        return repr(tree[1])

    def value_of_name(self, tree, scope):
        first, *parts = tree[1].split(".")
        if tree[1] in VALUES:
            return VALUES[tree[1]]
        if first not in scope:
            return self.applied(tree[1], (), scope)
        return functools.reduce(part_of, parts, scope[first])

    def value_of_part(self, tree, scope):
        return part_of(self.value(tree[1], scope), tree[2])

    def value_of_tuple(self, tree, scope):
        return f"({', '.join(self.value(it, scope) for it in tree[1])},)"

    def value_of_if(self, tree, scope):
        test, first, second = (self.value(it, scope) for it in tree[1:])
        return f"({first} if {test} else {second})"

    def value_of_let(self, tree, scope):
        name = self.fresh()
        return f"(lambda {name}: {self.value(tree[3], scope | {tree[1]: name})})({self.value(tree[2], scope)})"

    def value_of_fun(self, tree, scope):
        names = {it: self.fresh() for it in tree[1]}
        return f"(lambda {', '.join(names.values())}: {self.value(tree[2], scope | names)})"

    def value_of_record(self, tree, scope):
        fields = ", ".join(f"{name}={self.value(it, scope)}" for _, name, it in tree[2])
        if tree[1]:
            return f"{self.value(tree[1], scope)}._replace({fields})"
        return f"record({', '.join(repr(name) for _, name, _ in tree[2])})({fields})"

    def value_of_op(self, tree, scope):
        if tree[1] == "×" and binds(tree[2]):
            return self.exists(tree, scope)
        if tree[1] in SIGNS:
            return SIGNS[tree[1]].format(self.value(tree[2], scope), self.value(tree[3], scope))
        return self.applied(f"◌{tree[1]}◌", tree[2:], scope)

    def value_of_call(self, tree, scope):
        head, args = tree[1:]
        if head == ("name", "¬"):
            return f"(not {self.value(args[0], scope)})"
        if head[0] == "name" and head[1].split(".")[0] not in scope:
            return self.applied(head[1], args, scope)
        return f"{self.value(head, scope)}({', '.join(self.value(it, scope) for it in args)})"

    def applied(self, name, args, scope):
        """What a name stands for, with these arguments."""
        values = [self.value(it, scope) for it in args]
        found = self.code.specs.find(self.file, name)
        if isinstance(found, Definition):
            return self.defined(found, values, scope)
        kind, inner, more = found
        if inner in NUMBERS:
            return NUMBERS[inner].format(*values)
        if inner in self.code.words:
            return called(f"w_{inner}", self.code.words[inner].__code__.co_argcount, values)
        if kind == "outside" and more is None:
            raise Unread(f"{self.file.path}: {name} is not known")
        made = "".join(f"{it}, " for it in values)
        if kind == "constructor" and len(values) < more:
            return f"(lambda *rest: Data({inner!r}, ({made}*rest)))"
        return f"Data({inner.rpartition('.')[2]!r}, ({made}))"

    def given_to(self, definition, scope):
        """What the modules around this definition give to another one."""
        return [scope[it] for it in definition.given if it in scope] if definition.module == self.definition.module else []

    def defined(self, definition, values, scope):
        """The value of a definition with these arguments; of a relation that has all, whether it holds."""
        types, is_relation = self.code.takes(definition)
        values = self.given_to(definition, scope) + values
        if not is_relation:
            count = len(definition.given) + len(definition.parts[0][0])
            return called(self.code.name(definition, "value"), count, values)
        if len(values) < len(definition.given) + len(types):
            return f"rel({', '.join([self.code.name(definition, 'relation'), *values])})"
        return f"holds({self.searched(definition, 'test')}({', '.join(values)}))"

    def searched(self, definition, way):
        """The name of the search of a relation that isn't one of rows."""
        return f"own_{definition.name}" if definition.name in self.code.own else self.code.name(definition, way)

    def exists(self, tree, scope):
        """Whether there is something with which a proposition holds."""
        other = Writer(self.code, self.file, self.definition)
        name, names = f"exists_{next(self.code.numbers)}", sorted({it for it in scope.values() if it.isidentifier()})
        other.numbers = self.numbers
        other.put(f"def {name}({', '.join(names)}):")
        for goals in alternatives(tree):
            depth = other.depth
            Search(other, dict(scope)).run(goals, lambda _: "True")
            other.depth = depth
        self.others += [*other.others, *other.lines]
        return f"holds({name}({', '.join(names)}))"

    # ---- relations

    def write_relation(self, name):
        """The searches of a relation of rows, or what it is unfolded to."""
        relation = self.code.space[name]
        if self.definition.kind == "equations" and len(self.definition.parts[0][0]) < len(self.types):
            self.write_value(f"unfold_{name}")
            relation.unfold = self.code.space[f"unfold_{name}"]
            return
        for way, is_open in (("search", False), ("search_open", True)):
            self.write_search(f"{way}_{name}", is_open)
            setattr(relation, way, self.code.space[f"{way}_{name}"])

    def write_search(self, name, is_open):
        given, args = self.begin(name, len(self.types) - 1)
        for patterns, body in self.clauses():
            depth, scope = self.depth, self.matched(patterns[:-2], args, given)
            for goals in alternatives(body):
                inside, search = self.depth, Search(self, dict(scope), patterns[-1], True, is_open)
                search.run([("row", patterns[-2], args[-1]), *goals], search.row_found)
                self.depth = inside
            self.depth = depth
        self.put("yield from ()")
        self.end()

    def clauses(self):
        """The equations of a relation; a constructor of `data` is one too, whose body are its premises."""
        if self.definition.kind == "equations":
            yield from self.definition.parts
            return
        for _, kind in self.definition.parts:
            premises = []
            while kind[:2] == ("op", "→"):
                premises.append(kind[2])
                kind = kind[3]
            yield kind[2], functools.reduce(lambda rest, it: ("op", "×", it, rest), reversed(premises), ("name", "⊤"))

    def write_last(self, name):
        self.write_other(name, True)

    def write_test(self, name):
        self.write_other(name, False)

    def write_other(self, name, is_last):
        """The search of a relation that isn't one of rows: what its last argument is, or whether it holds."""
        given, args = self.begin(name, len(self.types) - is_last)
        for patterns, body in [self.fields()] if self.definition.kind == "record" else self.clauses():
            out = patterns[-1] if is_last else None
            depth, scope = self.depth, self.matched(patterns, args, given)
            for goals in alternatives(body):
                inside = self.depth
                Search(self, dict(scope), out).run(goals, lambda it, out=out: it.value(out) if out else "True")
                self.depth = inside
            if self.definition.kind == "equations":
                # (the first equation that fits is the one)
                self.put("return")
            self.depth = depth
        self.put("yield from ()")
        self.end()

    def fields(self):
        """A record as an equation: its parameters, and its fields as goals."""
        goals = [self.goal_of(it, kind) for it, kind in self.definition.parts]
        names = tuple(("name", it) for it, _ in self.definition.names)
        return names, functools.reduce(lambda rest, it: ("op", "×", it, rest), reversed(goals), ("name", "⊤"))

    def goal_of(self, name, kind):
        """A field of a record: something that there is, or a proposition."""
        head = kind[1] if kind[0] == "call" else kind
        if head[0] != "name":
            return kind
        found = None if head[1] in TYPES else self.code.specs.find(self.file, head[1])
        is_type = head[1] in TYPES or (isinstance(found, Definition) and found.kind != "equations" and kind[0] == "name")
        return ("bind", Names([name]), kind) if is_type else kind


def part_of(value, part):
    """A part of a value: a field, or one of a tuple by its number."""
    return f"{value}[{part}]" if part.isdigit() else f"{value}.{part}"


def called(name, count, values):
    """A call of a Python function that takes so many arguments; one with fewer is a function of the others."""
    if len(values) < count:
        return f"partial({', '.join([name, *values])})"
    rest = f"({', '.join(values[count:])})" if len(values) > count else ""
    return f"{name}({', '.join(values[:count])}){rest}"
