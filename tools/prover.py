"""Proves and compiles a crate, for ./build and bindings/build: python3 tools/prover.py JOBS, in the crate's folder.

The crate is proved from nothing, over the proved libraries below it, by the functions of `rt ci`, which hold the prover's last
line to what a verdict may rest on, and to the file HANDLES. A library that is made so holds its statements, and not its proofs:
the crates above need no more. A program and the library for C are compiled by LLVM. What is made is recorded (tools/proved.py).

A library that was proved over kept work (out/incremental) says so, and such a verdict can't rest on it: the crates above are left
to `rt lib` and `rt run`.
"""
import contextlib
import os
import re
import shutil
import sys
import tempfile

import passed
import proved


def is_over_kept_work(rt, crate):
    """Whether a crate's library tells that it was proved over kept work."""
    return re.search(r"^incremental$", rt.rtlib.text_of(f"{crate.rlib}/format") or "", re.M) is not None


def is_over_others(rt, crate):
    """Whether a crate's library tells that it was proved over other libraries than those that are there."""
    sums = dict(re.findall(r"^over (\w+) (\w+)$", rt.rtlib.text_of(f"{crate.rlib}/format") or "", re.M))
    return any(it.name in sums and sums[it.name] != rt.rtlib.sum_of(f"{it.rlib}/format") for it in crate.below())


def compiled(rt, crate, flags):
    """Proves and compiles a program or a static library."""
    words, made, new = crate.words(flags, keeps=False), f"out/{proved.file_of(crate)}", f"out/{crate.name}.new"
    with tempfile.TemporaryDirectory(prefix="cedar-") as room:
        status = crate.prove(["check", *words, "-o", f"{room}/checked"])
        # (the verdict is taken from that check, and so are its logic and its jobs)
        for flag in ("--logic-built", "--jobs"):
            at = words.index(flag)
            words = [*words[:at], *words[at + 2 :]]
        words += ["--crate-checked", f"{room}/checked", "--toolchain", f"{rt.KIT}/toolchain"]
        if crate.is_static:
            return status or crate.call(rt.rtlib.RATTLE, "build", *words, "--backend", "llvm", "-o", made)
        # (this also holds what the program calls to HANDLES)
        status = status or crate.compile_by("llvm", words, new)
    if not status:
        os.replace(new, made)
    for it in (new, f"{new}.o"):
        with contextlib.suppress(FileNotFoundError):
            os.remove(it)
    return status


def main():
    here = os.getcwd()
    top, name = os.path.dirname(os.path.dirname(here)), os.path.basename(here)
    records = proved.Records("prover", top, top)
    rt, crate = records.rt, records.crates[name]
    rt.rtlib.guarded()
    rt.Crate.cuts_libraries = True
    held = rt.rtlib.lock([*crate.below(), crate])
    os.makedirs("out", exist_ok=True)
    flags, before = ["--jobs", sys.argv[1]], records.stamp(name)
    # (what `rt ci` passed isn't proved again, and the other way round)
    if crate.makes_rlib():
        status = proved.from_store(passed.Store(rt), crate, False, lambda: crate.build_rlib(flags, anew=True))
    elif crate.is_program and not hasattr(rt, "Kept"):
        with contextlib.suppress(FileNotFoundError):
            # (an earlier program has another name, too, by which it can be run in the meantime)
            os.remove(f"out/{crate.name}")
        status = proved.from_store(passed.Store(rt), crate, False, lambda: crate.ci(flags, False))
    else:
        status = compiled(rt, crate, flags)
    if status and crate.makes_rlib():
        # (the prover may have written what the verdict refuses)
        shutil.rmtree("out/rlib", ignore_errors=True)
    if status or before != records.stamp(name):
        return status or "prover: the files changed meanwhile, so nothing is recorded"
    if crate.makes_rlib():
        records.note_library(name)
    else:
        records.note(name, proved.file_of(crate))
    for it in held:
        os.close(it)
    return 0


if __name__ == "__main__":
    sys.exit(main())
