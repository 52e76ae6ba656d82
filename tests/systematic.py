"""Hostile texts that are made of every worked text, one after the other, with what is wanted of each.

The worked texts are those of tests/rows and tests/faults. An order is what tests/hostile.c reads: a name, two numbers, a text and
a second one. What is wanted beyond the promises to every text follows from the worked layouts and refusals: other blanks, zeros
before a number and trailing commas without comments leave a layout as it is; a comment moves the byte of a refusal by its size;
and a word that becomes another as wide changes nothing else.
"""
import glob
import os
import re

import worked

HERE = os.path.dirname(os.path.realpath(__file__))
# Texts up to this size are changed at every place.
SHORT = 1000
USUAL = 80, 2
GRAMMAR = worked.KINDS["not in the grammar"]

# ---- where a text can be changed

BLANKS = "\t\n\v\f\r \x85\xa0\u1680\u2000\u2001\u2002\u2003\u2004\u2005\u2006\u2007\u2008\u2009\u200a\u2028\u2029\u202f\u205f\u3000"
GAP = re.compile(rf"(?:[{BLANKS}]|//[^\n\r]*)*")
SIGNS = r"::|==|!=|<=|>=|\|\||&&|[@.,;:(){}\[\]<>+\-*/%!]"
TOKEN = re.compile(rf'[A-Za-z_][A-Za-z0-9_]*|[0-9]+|"(?:[^"\\]|\\[^\n])*"|\?principal|\?resource|{SIGNS}')


def split(text):
    """The gaps and the tokens of a text in turn, up to where it doesn't split; the last gap, and what is left of it then."""
    parts, at = [], 0
    while True:
        parts.append(GAP.match(text, at)[0])
        at += len(parts[-1])
        token = TOKEN.match(text, at)
        if not token:
            return parts, text[at:]
        parts.append(token[0])
        at = token.end()


def places(parts):
    """Both ends of each gap."""
    ends = [0]
    for part in parts:
        ends.append(ends[-1] + len(part))
    return sorted(set(ends))


def takes_comma(tokens, at):
    """Whether a trailing comma may stand before the token, a closing bracket of an accepted text."""
    depth = 0
    for open_at in range(at - 1, -1, -1):
        depth += (tokens[open_at] in ")]}") - (tokens[open_at] in "([{")
        if depth < 0:
            break
    before = tokens[open_at - 1]
    if open_at == at - 1 or tokens[at - 1] == ",":
        return False
    if tokens[at] == "}":
        return before not in ("when", "unless")
    is_after_operand = is_operand_end(before) and not (tokens[at] == ")" and tokens[open_at - 2] == "@")
    return is_after_operand == (tokens[at] == ")")


def is_operand_end(token):
    words = "if", "then", "else", "in", "is", "has", "like"
    return (token[0].isalnum() or token[0] in '_")]}') and token not in words


# ---- what a worked text becomes

COMMENTS = " // c{}\n", "\n// c{}\n", " // c{}\r// d{}\n", "\n// c{}\n// d{}\n\n", " // c{}\r"
COMMAS = (
    ",",
    ",// c\n",
    "\n// c\n,",
    ",// b\n,// c\n",
    ",\n// c\n",
    ",// c\r// d\n// e\n",
    " // b\n,// c\n",
    " // b\n// c\n, // d\n// e\n",
)
SIGNED = (
    "{0}{0}",
    "{0}{0}{0}",
    "{0}{0}{0}{0}",
    "{0}// b\n{0}// c\n{0}",
    "{0}// b\n{0}// c\n{0}// d\n{0}// e\n",
    "\n// b\n{0}\n// c\n{0}\n// d\n{0}\n// e\n",
)
BEFORE_OPERAND = {*"{([,:<>+-*", "==", "!=", "<=", ">=", "&&", "||", "in", "if", "then", "else"}
OTHER_BLANKS = {"\n": ("\r\n", "\n\v", "\f\n \t", "\n\n\n"), " ": ("\t", "\u3000", "  \x85", "\u2028\xa0")}
NOT_UTF8 = b"\xff", b"\xc3", b"\xc0\x80", b"\xed\xa0\x80", b"\xf4\x90\x80\x80", b"\x80", b"\xe2\x80", b"\xf0\x9f\xa6"
NOT_TOKENS = "\0", "\x7f", "#", "'", "\ufeff", "\u200b", "&", "|", "=", "?", "$", "\\", "\u201c", "\x1b", "`", "~", "^", '"'
WIDTHS = (0, 2), (1, 0), (17, 300), (65535, 2), (65536, -1), (2**32, 8), (2**63, 2), (2**64 - 1, -(2**63))
# Words that are as wide as each other: two columns, one column, and two columns of joined characters.
AS_WIDE = ("qq", "字"), ("q", "é"), ("q", "e\u0301"), ("q", "ﬀ"), ("qq", "한"), ("qq", "\U0001f980")
AS_WIDE += (("qq", "\U0001f469\u200d\U0001f467"),)


class Text:
    """A worked text with the rows that it has."""

    def __init__(self, text, rows):
        self.text, self.rows = text, rows
        self.parts, self.left = split(text)
        self.is_accepted = bool(rows) and rows[0].refusal is None
        self.refusal = worked.answer_of(rows[0].refusal) if rows and rows[0].refusal else None

    def same(self, text):
        """A text that is laid out as this one."""
        yield "check", *USUAL, text, ""
        for row in self.rows:
            if row.layout is not None:
                yield "equal", row.width, row.indent, text, row.layout

    def longer(self, at, added):
        """The text with something added in a gap that is neither a token nor joins two."""
        text = self.text[:at] + added + self.text[at:]
        yield "check", *USUAL, text, ""
        if self.refusal:
            kind, byte = self.refusal
            before = len(self.text[:at].encode())
            yield "refused", kind, byte + (len(added.encode()) if before <= byte else 0), text, ""


def comments(it):
    """A comment of each form at both ends of each gap, and in all gaps at once."""
    for form in COMMENTS:
        for at in places(it.parts):
            yield from it.longer(at, form.format(1, 1))
        numbered = [part + form.format(at, at) * (at % 2 == 0) for at, part in enumerate(it.parts)]
        yield "check", *USUAL, "".join(numbered) + it.left, ""


def commas(it):
    """Trailing commas with and without comments, before each closing bracket."""
    tokens, gaps = it.parts[1::2], it.parts[::2]
    for at, token in enumerate(tokens):
        if token in (")", "]", "}"):
            before, after = "".join(it.parts[: 2 * at]), "".join(it.parts[2 * at + 1 :]) + it.left
            for comma in COMMAS:
                yield "check", *USUAL, before + gaps[at] + comma + after, ""
            if it.is_accepted and takes_comma(tokens, at) and not gaps[at].strip(BLANKS):
                yield from it.same(before + "," + gaps[at] + after)


def zeros(it):
    """Zeros before each number, and before all at once."""
    numbers = [at for at, part in enumerate(it.parts) if at % 2 and part.isdecimal()]
    for chosen in [*([at] for at in numbers), numbers] if it.is_accepted else []:
        for count in (1, 3, 40):
            yield from it.same("".join("0" * count * (at in chosen) + part for at, part in enumerate(it.parts)))


def signs(it):
    """Two to four signs before each operand, with comments and without."""
    for at in range(2, len(it.parts), 2):
        if it.parts[at - 1] in BEFORE_OPERAND:
            before, after = "".join(it.parts[: at + 1]), "".join(it.parts[at + 1 :]) + it.left
            for form in SIGNED:
                for sign in "!-":
                    yield "check", *USUAL, before + form.format(sign) + after, ""


def blanks(it):
    """Other blanks in all gaps."""
    for blank, others in OTHER_BLANKS.items():
        for other in others:
            gaps = [part.replace(blank, other) if blank == "\n" or "//" not in part else part for part in it.parts[::2]]
            text = "".join(gap + token for gap, token in zip(gaps, [*it.parts[1::2], ""]))
            if it.is_accepted:
                yield from it.same(text)
            else:
                yield "check", *USUAL, text + it.left, ""


def bytes_between(it):
    """Bytes that aren't UTF-8, and characters that begin no token, at both ends of each gap and inside of tokens."""
    text = it.text.encode()
    for count, at in enumerate(range(0, len(text) + 1, 3)):
        yield "check", *USUAL, text[:at] + NOT_UTF8[count % len(NOT_UTF8)] + text[at:], ""
    for count, at in enumerate(places(it.parts)):
        yield "check", *USUAL, it.text[:at] + NOT_TOKENS[count % len(NOT_TOKENS)] + it.text[at:], ""


def beginnings(it):
    """What an accepted text begins with, up to each token: refused at its end, if that doesn't end a policy."""
    for at in range(2, len(it.parts), 2) if it.is_accepted else []:
        text = "".join(it.parts[:at])
        if it.parts[at - 1] == ";":
            yield "check", *USUAL, text, ""
        else:
            yield "refused", GRAMMAR, len(text.encode()), text, ""


def layouts(it):
    """Odd widths and indentations, and words as wide as others."""
    for width, indent in WIDTHS:
        yield "check", width, indent, it.text, ""
    if it.is_accepted and '"' in it.text:
        for words in AS_WIDE:
            text = "".join(f'"{words[0]}{part[1:]}' if part[0:1] == '"' else part for part in it.parts)
            yield "exchange", 100, 2, text, "\n".join(words)


def worked_texts():
    """The worked texts, each once."""
    rows = {}
    for row in worked.read():
        rows.setdefault(row.text.decode(), []).append(row)
    for path in sorted(glob.glob(f"{HERE}/faults/**/*.cedar", recursive=True)):
        rows.setdefault(worked.bytes_of(path).decode(), [])
    return [Text(text, it) for text, it in rows.items()]


def long_texts(texts):
    """Long texts: those that are worked out, many policies, and long tokens, comments, lists and chains."""
    for row in worked.in_parts():
        if row.layout is not None:
            yield "equal", row.width, row.indent, row.text, row.layout
        elif row.refusal:
            yield "refused", *worked.answer_of(row.refusal), row.text, ""
        else:
            yield "check", *USUAL, row.text, ""
    laid_out = [(it, row.layout) for it in texts for row in it.rows if row.layout and (row.width, row.indent) == USUAL]
    apart = [(it.text + "\n", layout.decode()) for it, layout in laid_out if it.parts[1:] and not it.parts[-1].strip(BLANKS)]
    yield "equal", *USUAL, 20 * "".join(text for text, _ in apart), "\n".join(20 * [layout for _, layout in apart])
    for size in (1000, 65536, 300_000):
        begin = "permit(principal,action,resource)when{"
        yield "check", *USUAL, f'// {"c" * size}\n{begin}"{"字" * size}"like "{"*" * size}"}};', ""
        yield "check", *USUAL, begin + "a::" * (size // 9) + '"b"};', ""
        yield "check", *USUAL, begin + "[" + "007,// c\n" * (size // 30) + "]};", ""
        yield "check", *USUAL, begin + "true" + " && // c\ntrue" * (size // 30) + "};", ""
        yield "check", *USUAL, "\n\n// c\r" * size + begin + "true};", ""


def orders():
    """All orders, text after text."""
    texts = worked_texts()
    for it in texts:
        for row in it.rows:
            if row.layout is not None:
                yield "equal", row.width, row.indent, it.text, row.layout
            elif row.refusal:
                yield "refused", *it.refusal, it.text, ""
        yield "check", *USUAL, it.text, ""
    for it in texts:
        if len(it.text) <= SHORT:
            for make in (comments, commas, zeros, signs, blanks, bytes_between, beginnings, layouts):
                yield from make(it)
    yield from long_texts(texts)


def order(name, number, second, text, other):
    """An order as bytes."""
    text, other = (it.encode() if isinstance(it, str) else it for it in (text, other))
    return b"%s %d %d %d %d\n%s%s" % (name.encode(), number, second, len(text), len(other), text, other)
