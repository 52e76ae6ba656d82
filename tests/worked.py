"""The worked rows of tests/rows: texts with their layouts, texts that are refused, and texts that are accepted.

A row is a file NAME.cedar in the folder of its topic, with what is wanted beside it: in layouts/ a file
NAME.WIDTH.INDENT.formatted for each width and indentation; in refused/ a file NAME.refused, in the words of the error; in
accepted/ nothing. The bytes of the files are the text and its layout. Long texts are in rows/long.py.
"""
import glob
import os
import re
from typing import NamedTuple, Optional

from rows import long

ROWS = f"{os.path.dirname(os.path.realpath(__file__))}/rows"
NO_ROWS = "check", "long.py"
# The words of the refusals, and their numbers in include/cedar_formatter.h.
KINDS = {"unknown character": 1, "unfinished string": 2, "number too large": 3, "not in the grammar": 4, "nested too deeply": 5}
REFUSAL = re.compile(f"({'|'.join(KINDS)}) at byte ([0-9]+)")


class Row(NamedTuple):
    """A text with its layout or its refusal; with neither, it is accepted."""

    name: str
    text: bytes
    width: int = 80
    indent: int = 2
    layout: Optional[bytes] = None
    refusal: Optional[str] = None


def bytes_of(path):
    with open(path, "rb") as it:
        return it.read()


def row_of(stem, text, name, data):
    """The row that a file beside a text makes, if it is named and filled as it has to be."""
    kind, ending = stem.split("/")[0], name[len(stem) :]
    if kind == "layouts" and (found := re.fullmatch(r"\.([0-9]+)\.(-?[0-9]+)\.formatted", ending)):
        return Row(f"{stem} at {found[1]}, {found[2]}", text, int(found[1]), int(found[2]), layout=data)
    if kind == "refused" and ending == ".refused" and (found := re.fullmatch(REFUSAL.pattern.encode() + b"\n", data)):
        return Row(stem, text, refusal=found[0].decode().strip())
    return None


def in_files(folder=ROWS):
    """The rows of a folder's files, and what is wrong with the files themselves."""
    files = [os.path.relpath(it, folder) for it in sorted(glob.glob(f"{folder}/**", recursive=True)) if os.path.isfile(it)]
    files = [it for it in files if it not in NO_ROWS and not it.startswith("__pycache__/")]
    beside = {it[:-6]: [] for it in files if re.fullmatch(r"(layouts|refused|accepted)/[a-z-]+/[a-z0-9-]+\.cedar", it)}
    rows, faults = [], []
    for name in (it for it in files if it[:-6] not in beside):
        if (stem := name.partition(".")[0]) in beside:
            beside[stem].append(name)
        else:
            faults.append(f"{name} belongs to no row")
    for stem, names in beside.items():
        text, is_accepted = bytes_of(f"{folder}/{stem}.cedar"), stem.startswith("accepted/")
        made = {it: row_of(stem, text, it, bytes_of(f"{folder}/{it}")) for it in names}
        faults += [f"{it} isn't what stands beside a text there" for it, row in made.items() if not row]
        if not names and not is_accepted:
            faults.append(f"{stem}.cedar has nothing beside it")
        rows += [Row(stem, text)] if is_accepted else [it for it in made.values() if it]
    return rows, faults


def in_parts():
    """The rows of rows/long.py."""
    rows = [Row(f"long.py: {name}", text.encode(), refusal=refusal) for name, text, refusal in long.NESTED]
    return rows + [Row(f"long.py: {name}", text.encode(), layout=layout.encode()) for name, text, layout in long.LONG]


def read():
    rows, faults = in_files()
    if faults:
        raise ValueError("; ".join(faults))
    return rows


def layouts():
    """(width, indentation, text, layout), without the long ones"""
    return [(it.width, it.indent, it.text, it.layout) for it in read() if it.layout is not None]


def answer_of(refusal):
    """The kind and the byte of a refusal."""
    kind, at = REFUSAL.fullmatch(refusal).groups()
    return KINDS[kind], int(at)


def refusals():
    """(text, kind and byte, or None where it is accepted)"""
    rows = [it for it in read() + in_parts() if it.layout is None]
    return [(it.text, answer_of(it.refusal) if it.refusal else None) for it in rows]
