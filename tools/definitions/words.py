"""The words of the kit that definitions use, as Python functions. Lists are tuples; a text is the tuple of its bytes."""
import itertools
import unicodedata

BLANKS = {*range(9, 14), 32, 0x85, 0xA0, 0x1680, *range(0x2000, 0x200B), 0x2028, 0x2029, 0x202F, 0x205F, 0x3000}
JOINER, EMOJI_SELECTOR = 0x200D, 0xFE0F


def characters(text):
    return tuple(map(ord, bytes(text).decode()))


def decoded(text):
    """The character that a text is, if it is one."""
    try:
        found = characters(text)
    except UnicodeDecodeError:
        return ()
    return found if len(found) == 1 else ()


def trim(text):
    found = bytes(text).decode()
    return tuple(found.strip("".join(map(chr, BLANKS))).encode())


def width_of(character):
    c = chr(character)
    if unicodedata.category(c) in ("Mn", "Me", "Cf") and character != 0xAD:
        return 0
    return 2 if unicodedata.east_asian_width(c) in "WF" else 1


def str_width(_, text):
    """The columns of characters. Joined emoji are as wide as one. (Of the kit's rules these are those that texts here need.)"""
    total, before = 0, None
    for c in text:
        if not (before == JOINER and width_of(c) == 2):
            total += width_of(c)
        before = c
    return total


def digits_value(base, digits):
    return sum((it - 48) * base**at for at, it in enumerate(reversed(digits)))


def before_first(test, items):
    return tuple(itertools.takewhile(lambda it: not test(it), items))


def after_first(test, items):
    return items[len(before_first(test, items)) + 1 :]


def for_all(search, items):
    """Each list of what a search finds for each item."""
    return itertools.product(*(tuple(search(it)) for it in items))


def is_letter(b):
    return 65 <= b <= 90 or 97 <= b <= 122


WORDS = {
    "length": lambda xs: len(xs),
    "map": lambda f, xs: tuple(map(f, xs)),
    "filter": lambda f, xs: tuple(filter(f, xs)),
    "concat": lambda xs: tuple(itertools.chain(*xs)),
    "flat_map": lambda f, xs: tuple(itertools.chain(*map(f, xs))),
    "list_any": lambda f, xs: any(map(f, xs)),
    "list_all": lambda f, xs: all(map(f, xs)),
    "sum_by": lambda f, xs: sum(map(f, xs)),
    "take_while": lambda f, xs: tuple(itertools.takewhile(f, xs)),
    "before_first": before_first,
    "after_first": after_first,
    "starts_with": lambda _, xs, start: xs[: len(start)] == start,
    "take": lambda n, xs: xs[:n],
    "drop": lambda n, xs: xs[n:],
    "slice_index": lambda xs, at: xs[at],
    "replicate": lambda n, x: (x,) * n,
    "codes": lambda text: tuple(map(ord, text)),
    "chars": characters,
    "trim": trim,
    "bytes_eq": lambda a, b: a == b,
    "nat_eq": lambda a, b: a == b,
    "nat_lt": lambda a, b: a < b,
    "nat_le": lambda a, b: a <= b,
    "min": lambda a, b: min(a, b),
    "not": lambda a: not a,
    "IsTrue": lambda a: a,
    "IsFalse": lambda a: not a,
    "encode_utf8": lambda c: tuple(chr(c).encode()),
    "decoded": decoded,
    "is_whitespace": lambda c: c in BLANKS,
    "is_ascii_digit": lambda b: 48 <= b <= 57,
    "is_ascii_alphabetic": is_letter,
    "is_ascii_alphanumeric": lambda b: is_letter(b) or 48 <= b <= 57,
    "digits_value": digits_value,
    "str_width": str_width,
    "for_all": for_all,
}
