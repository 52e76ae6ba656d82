"""Writes the lines of a search through the goals of a relation. A goal is taken once all that it needs is known."""
from .antt import ROW, Definition, Unread, walk


class Place:
    """Where a row begins or ends: the Python name of the cell, once it is known; or a place that it is the same as."""

    def __init__(self, cell=None):
        self.known, self.same = cell, None

    def find(self):
        return self.same.find() if self.same else self

    @property
    def cell(self):
        return self.find().known


class Search:
    """A search for all that makes goals true. The scope has the Python names of what is known, and `out` is what is asked for.

    With `in_rows` lists of tokens are rows, each from a place to a place. With `is_open` tokens may be such that nobody knows, and
    what rows are related to is left out.
    """

    def __init__(self, writer, scope, out=None, in_rows=False, is_open=False):
        self.writer, self.code, self.scope, self.out = writer, writer.code, scope, out
        self.in_rows, self.is_open = in_rows, is_open
        self.rows, self.end, self.unknown = {}, None, set()
        if out and out[0] == "name" and self.writer.is_free(out[1]):
            self.unknown.add(out[1])

    def run(self, goals, answer):
        """Takes all goals, and yields the answer."""
        goals = list(goals)
        while goals:
            for at, goal in enumerate(goals):
                more = self.take(goal)
                if more is not None:
                    goals[at : at + 1] = more
                    break
            else:
                raise Unread(f"{self.writer.file.path}: no goal of {self.writer.definition.name} can be taken of {goals}")
        self.writer.put(f"yield {answer(self)}")

    def take(self, goal):
        """Takes a goal, and gives the goals that it leaves; None if something that it needs isn't known yet."""
        if goal[0] in ("bind", "row", "first"):
            return getattr(self, f"take_{goal[0]}")(*goal[1:])
        if goal[:2] == ("op", "≡"):
            return self.take_equation(goal)
        if goal[0] == "call" and len(goal[2]) > 1 and (self.is_row(goal[2][-2]) or self.is_of_rows(goal[1])):
            return self.take_related(goal)
        if goal[0] == "call" and (found := self.take_relation(goal)) is not None:
            return found
        return self.take_test(goal)

    def take_bind(self, names, kind):
        """Something that has to be found."""
        if self.in_rows and kind == ROW:
            self.rows = {it: (Place(), Place()) for it in names} | self.rows
        else:
            self.unknown |= set(names)
        return []

    def take_test(self, goal):
        """What can be computed."""
        if not self.is_known(goal):
            return None
        test = self.value(goal)
        self.writer.put(f"if possible(lambda: {test}):" if self.is_open else f"if {test}:")
        return []

    def found(self, names):
        """Gives names to what is found now."""
        self.unknown -= set(names)
        self.scope |= names

    # ---- what is known

    def names(self, tree):
        """The names in a tree that don't stand for something of its own."""
        inner = {name for it in walk(tree) if it[0] in ("fun", "bind") for name in it[1]}
        return {it[1].split(".")[0] for it in walk(tree) if it[0] == "name"} - inner

    def is_known(self, tree):
        names = self.names(tree)
        return not names & self.unknown and all(place.cell for it in names & set(self.rows) for place in self.rows[it])

    def value(self, tree):
        scope = dict(self.scope)
        for name in self.names(tree) & set(self.rows):
            start, end = self.rows[name]
            scope[name] = f"taken({start.cell}, {end.cell})"
        return self.writer.value(tree, scope)

    def is_pattern(self, tree):
        """Whether a value can be matched with a tree."""
        if tree[0] == "name":
            return tree[1] not in self.rows and (tree[1] in self.unknown or self.is_known(tree))
        if tree[0] == "op" and tree[1] in ("∷", "++"):
            return all(map(self.is_pattern, tree[2:]))
        if tree[0] == "call" and tree[1][0] == "name" and self.writer.makes(tree[1][1]):
            return all(map(self.is_pattern, tree[2]))
        return self.is_known(tree)

    def match(self, pattern, value):
        """Goes on if a value fits a pattern; what was unknown of the pattern is found then."""
        scope = {it: name for it, name in self.scope.items() if it not in self.unknown}
        self.writer.match(pattern, value, scope)
        self.found(scope)

    # ---- rows

    def is_row(self, tree):
        """Whether a tree is made of rows."""
        if tree[0] == "op" and tree[1] in ("∷", "++"):
            return self.is_row(tree[3])
        return tree[0] == "name" and tree[1] in self.rows

    def is_of_rows(self, head):
        """Whether a name is that of a relation of rows."""
        found = head[0] == "name" and self.code.specs.find(self.writer.file, head[1])
        return isinstance(found, Definition) and self.code.is_of_rows(found)

    def join(self, one, other):
        """Makes two places the same; if both are known, the search goes on only if they are."""
        one, other = one.find(), other.find()
        if one is not other:
            if one.known and other.known:
                self.writer.put(f"if {one.known} is {other.known}:")
            one, other = (one, other) if one.known else (other, one)
            other.same = one

    def linked(self, tree, start, end):
        """The goals that make a row from one place to another what a tree says."""
        if tree[:2] == ("op", "∷"):
            middle = Place()
            return [("first", start, tree[2], middle), *self.linked(tree[3], middle, end)]
        if tree[:2] == ("op", "++"):
            middle = Place()
            return self.linked(tree[2], start, middle) + self.linked(tree[3], middle, end)
        if tree == ("name", "[]"):
            self.join(start, end)
        elif tree[1] in self.rows:
            self.join(self.rows[tree[1]][0], start)
            self.join(self.rows[tree[1]][1], end)
        else:
            self.rows[tree[1]] = start, end
        return []

    def take_row(self, pattern, cell):
        """The row that is searched, from a cell on."""
        self.end = Place()
        return self.linked(pattern, Place(cell), self.end)

    def row_found(self, _):
        """What a search of rows yields: where the row ends, and what it is related to."""
        return f"{self.end.cell}, {'None' if self.is_open else self.value(self.out)}"

    def take_first(self, start, item, rest):
        """The first token of a row, and the row after it."""
        if not start.cell:
            return None
        if item[0] != "name" or item[1] in self.scope:
            raise Unread(f"{self.writer.file.path}: in {self.writer.definition.name} a row begins with {item}")
        token, after = self.writer.fresh(), self.writer.fresh()
        self.writer.put(f"if {start.cell} is not END:")
        self.writer.put(f"{token}, {after} = {start.cell}.token, {start.cell}.next")
        self.found({item[1]: token})
        self.join(Place(after), rest)
        return []

    def take_related(self, goal):
        """A relation of rows: each row of it that begins there."""
        head, (*args, row, out) = goal[1:]
        tree = ("call", head, tuple(args)) if args else head
        begun = self.begun(row) if self.is_known(tree) else None
        if not begun:
            return None
        cell, value = self.writer.fresh(), self.writer.fresh()
        self.writer.put(f"for {cell}, {value} in {'rows_open' if self.is_open else 'rows'}({self.value(tree)}, {begun[0]}):")
        self.join(begun[1], Place(cell))
        if self.is_open:
            self.found({it: "None" for it in self.names(out) & self.unknown})
        else:
            self.match(out, value)
        return []

    def begun(self, row):
        """The cell that a row begins with, and the place where it ends; None if that isn't known."""
        if row[:2] == ("op", "∷") and self.is_row(row):
            rest = self.begun(row[3])
            if not rest or not self.is_known(row[2]):
                return None
            token = self.value(row[2])
            return f"{rest[0]}.after({f'token_or_any(lambda: {token})' if self.is_open else token})", rest[1]
        if self.is_row(row):
            start, end = self.rows[row[1]]
            return (start.cell, end) if start.cell else None
        return (f"chain({self.value(row)}, END)", Place("END")) if self.is_known(row) else None

    # ---- equations and other relations

    def take_equation(self, goal):
        """Two values that are equal: one may have parts that aren't known yet. Or what a row is."""
        for one, other in (goal[2:], goal[:1:-1]):
            if one[0] == "name" and one[1] in self.rows:
                return self.linked(other, *self.rows[one[1]])
        for one, other in (goal[2:], goal[:1:-1]):
            if self.is_open and one[0] == "name" and one[1] in self.unknown:
                # (what rows are related to is left out)
                self.found({one[1]: "None"})
                return []
            if self.is_known(other) and not self.is_known(one) and self.is_pattern(one):
                name = self.writer.fresh()
                self.writer.put(f"{name} = {self.value(other)}")
                self.match(one, name)
                return []
        return self.take_test(goal)

    def take_relation(self, goal):
        """A relation of which one argument isn't known: what it can be."""
        head, args = goal[1:]
        lacking = [at for at, it in enumerate(args) if not self.is_known(it)]
        if head[0] != "name" or head[1] in self.scope or len(lacking) != 1 or not self.is_pattern(args[lacking[0]]):
            return None
        found = self.code.specs.find(self.writer.file, head[1])
        values = ["None" if at in lacking else self.value(it) for at, it in enumerate(args)]
        if not isinstance(found, Definition):
            search = self.of_each(args) if found[1] == "AllZip" and lacking == [2] else None
        elif found.name in self.code.own:
            search = f"own_{found.name}({', '.join(values)})"
        else:
            values = self.writer.given_to(found, self.scope) + values[:-1]
            search = f"{self.code.name(found, 'last')}({', '.join(values)})" if lacking == [len(args) - 1] else None
        if not search:
            return None
        name = self.writer.fresh()
        self.writer.put(f"for {name} in {search}:")
        self.match(args[lacking[0]], name)
        return []

    def of_each(self, args):
        """The search for lists whose items are each related to that of a list."""
        (item, other), body = args[0][1:]
        found = self.code.specs.find(self.writer.file, body[1][1])
        if body[2][-1] != ("name", other) or not isinstance(found, Definition):
            return None
        name = self.writer.fresh()
        values = ", ".join(self.writer.value(it, self.scope | {item: name}) for it in body[2][:-1])
        return f"w_for_all(lambda {name}: {self.code.name(found, 'last')}({values}), {self.value(args[1])})"


