"""What the prover recorded of the files that it built.

Beside a proved program, ./build leaves out/CRATE.stamp, as `rt run` does: a sum of everything that the program is made of, its
libraries, definitions and proofs too, and then the sum of the program. bindings/build leaves the same beside the library for C.
Beside a library lies out/rlib/stamp, with the first of the two sums. ./check leaves the same of what `rt ci` made. The `rt ci` of
some kits also keeps the sums of what it made beside the kit, by the sums of everything that the proof read. All this goes by rt's
own functions, so this depends on them.
"""
import contextlib
import copy
import importlib.machinery
import importlib.util
import json
import os
import shutil
import threading
import time

import kit


class Stamps(threading.local):
    """The sums of crates at one moment: each is found once, however many crates are above it."""

    known = None

    @contextlib.contextmanager
    def at_once(self):
        is_outer = self.known is None
        self.known = {} if is_outer else self.known
        try:
            yield self.known
        finally:
            if is_outer:
                self.known = None

    def once(self, stamp):
        """The function that finds a crate's sum, which calls itself for each crate below."""

        def found(crate):
            with self.at_once() as known:
                key = crate.folder, repr(crate.said)
                if key not in known:
                    known[key] = stamp(crate)
                return known[key]

        return found


STAMPS = Stamps()


def loaded(script):
    """The program `rt` as a module."""
    loader = importlib.machinery.SourceFileLoader("rt", f"{kit.folder(script)}/bin/rt")
    made = importlib.util.module_from_spec(importlib.util.spec_from_loader("rt", loader))
    loader.exec_module(made)
    made.rtlib.Crate.stamp = STAMPS.once(made.rtlib.Crate.stamp)
    return made


def crates_of(rt, top):
    """The crates of a copy of the repository, by their names."""
    rt.rtlib.Crate = rt.Crate
    return {it.name: it for it in rt.rtlib.crates_below(f"{top}/crates")}


def file_of(crate):
    """The file in a crate's folder out that is made of a program or a static library."""
    return f"lib{crate.name}.a" if crate.is_static else crate.name


def write_anew(file, text):
    """Writes a file that may have another name elsewhere, as `rt` gives it to the files of libraries."""
    with contextlib.suppress(FileNotFoundError):
        os.remove(file)
    with open(file, "w", encoding="utf-8") as it:
        it.write(text)


def copy_kept(folder, to):
    """Copies what a check has kept. What was proved is given a second name where that can be: a check replaces such a file, and
    changes none."""

    def copy(one, other):
        if one.endswith(".oantt"):
            with contextlib.suppress(OSError):
                return os.link(one, other)
        return shutil.copy2(one, other)

    shutil.copytree(folder, to, copy_function=copy)


class Records:
    """The records of a copy of the repository, for the sources of another one, or of the same."""

    def __init__(self, script, sources, built):
        self.rt, self.built = loaded(script), built
        self.rt.Crate.allowed = self.rt.handles_of(sources)
        self.crates, self.copies = (crates_of(self.rt, top) for top in (sources, built))
        # (not every kit has a store, and asking for it would make it)
        has_store = hasattr(self.rt, "STORE") and os.path.isdir(self.rt.STORE)
        self.store, self.known = has_store and self.rt.Kept(list(self.crates.values())), {}

    def stamp(self, crate):
        """The sum of everything that a crate's program or library is made of."""
        # (`rt run` adds the words and the status that a program is run with, and `rt ci` doesn't)
        of = copy.copy(self.crates[crate])
        self.rt.read_files(of)
        return of.stamp()

    def kept(self, crate):
        """The sums of the files that `rt ci` built of a crate of these sources, by their names; none if the copy has other libraries."""
        if crate not in self.known:
            self.known[crate] = self.find(self.crates[crate], self.copies[crate])
        return self.known[crate]

    def find(self, of, own):
        if not all(self.kept(it.name) for it in of.below()):
            return {}
        try:
            with open(f"{self.store.place(of, False, self.store.key(of))}/made.json", encoding="utf-8") as it:
                made = dict(json.load(it)["files"])
        except (OSError, ValueError, KeyError):
            return {}
        if of.makes_rlib():
            if any(self.rt.rtlib.sum_of(f"{own.folder}/out/{it}") != sum for it, sum in made.items()):
                return {}
            self.store.is_built(own)
        return made

    def are_of(self, crate, name):
        """Whether the prover recorded the file of this name in a crate's folder out, as it is, for these sources."""
        file = f"{self.built}/crates/{crate}/out/{name}"
        sum_of, text_of = self.rt.rtlib.sum_of, self.rt.rtlib.text_of
        is_kept = self.store and self.kept(crate).get(name) == sum_of(file)
        return is_kept or text_of(f"{file}.stamp") == self.stamp(crate) + sum_of(file)

    def note(self, crate, name):
        """Records a program or a library for C that the prover has just passed and built."""
        file = f"{self.built}/crates/{crate}/out/{name}"
        write_anew(f"{file}.stamp", self.stamp(crate) + self.rt.rtlib.sum_of(file))

    def note_library(self, crate):
        """Records a library that the prover has passed."""
        write_anew(f"{self.built}/crates/{crate}/out/rlib/stamp", self.crates[crate].stamp())


def from_store(store, crate, tests, prove):
    """Gives what is kept of a crate, or of its tests, or proves it; returns the status. What is given is as new as what is made."""
    status = store.through(crate, tests, prove)
    for it in store.made_of(crate, tests):
        with contextlib.suppress(OSError):
            os.utime(f"{crate.folder}/out/{it}")
    return status


class Run:
    """A run of `rt ci` over a copy of the repository, whose results are to be recorded."""

    def __init__(self, script, top):
        self.records, self.begun = Records(script, top, top), time.time()
        with STAMPS.at_once():
            self.before = {it: self.records.stamp(it) for it in self.records.crates}

    def is_of_the_run(self, made):
        """Whether a file or folder was made by the run."""
        return os.path.exists(made) and os.path.getmtime(made) >= self.begun

    def note(self):
        """Records what the run, which proved every crate, made of files that have not changed since."""
        with STAMPS.at_once():
            after = {it: self.records.stamp(it) for it in self.records.crates}
        for name, crate in self.records.crates.items():
            out = f"{crate.folder}/out"
            if self.before[name] != after[name]:
                continue
            # (a library that an earlier build made is put back after the run, with its record)
            if crate.makes_rlib() and self.is_of_the_run(f"{out}/rlib/{name}.rlib") and not os.path.exists(f"{out}/rlib/stamp"):
                self.records.note_library(name)
            elif crate.is_program and self.is_of_the_run(f"{out}/{name}"):
                self.records.note(name, name)
