"""Reads a grammar of TextMate, as far as that of Cedar goes: matches, and parts with a begin and an end.

Each line is read from left to right. Of the rules that match, the one that begins first is taken, and of these the first of the list,
the end of the part before all others.
"""
import json
import re
from typing import NamedTuple


class Rule(NamedTuple):
    """A rule: what it matches, or begins with and ends with, and what is inside."""

    name: str
    begin: re.Pattern
    begun: dict
    end: re.Pattern
    ended: dict
    inside: list


class Grammar:
    """A grammar of a file."""

    def __init__(self, path):
        with open(path, encoding="utf-8") as it:
            given = json.load(it)
        self.repository, self.kept = given["repository"], {}
        self.top = self.rules(given["patterns"])

    def rules(self, patterns):
        """The rules of a list, in order, with those that it includes."""
        found = []
        for it in patterns:
            name = it.get("include")
            if name and "patterns" in (inner := self.repository[name[1:]]) and "begin" not in inner:
                found += self.rules(inner["patterns"])
            else:
                found.append(self.rule(self.repository[name[1:]] if name else it))
        return found

    def rule(self, given):
        key = id(given)
        if key not in self.kept:
            begun, ended = ({int(n): it["name"] for n, it in given.get(f"{way}Captures", {}).items()} for way in ("begin", "end"))
            begin, end = re.compile(given.get("begin") or given["match"], re.A), given.get("end")
            self.kept[key] = Rule(given.get("name", ""), begin, begun, end and re.compile(end, re.A), ended, self.rules(given.get("patterns", [])))
        return self.kept[key]

    def spans(self, text):
        """Runs of a text with what they are shown as: start and end in bytes, and a name."""
        names, part, at = [""] * len(text), [], 0
        for line in text.splitlines(keepends=True):
            self.line(text[: at + len(line)], at, part, names)
            at += len(line)
        place = 0
        for character, name in zip(text, names):
            size = len(character.encode())
            yield place, place + size, name
            place += size

    def line(self, text, at, part, names):
        """Reads a line, which ends with the text; `part` has the rules of the parts that it is in."""

        def paint(start, end, name):
            names[start:end] = [name] * (end - start) if name else names[start:end]

        while at <= len(text):
            inner = part[-1] if part else None
            found = [(it.start(), 0, inner, it) for it in [inner.end.search(text, at)] if it] if inner else []
            found += [(it.start(), 1, rule, it) for rule in (inner.inside if inner else self.top) if (it := rule.begin.search(text, at))]
            if not found:
                break
            start, is_begin, rule, match = min(found, key=lambda it: it[:2])
            if inner:
                paint(at, start, inner.name)
            paint(start, match.end(), rule.name)
            for number, name in (rule.begun if is_begin else rule.ended).items():
                paint(*match.span(number), name)
            if not is_begin:
                part.pop()
            elif rule.end:
                part.append(rule)
            # (a match of nothing that changes nothing would be found again)
            at = match.end() + (is_begin and not rule.end and match.end() == match.start())
        if part:
            paint(at, len(text), part[-1].name)
