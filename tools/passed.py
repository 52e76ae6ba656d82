"""What the prover passed on this machine, where the kit's own `rt` keeps nothing between runs.

It is kept in $XDG_CACHE_HOME/noblesilk/passed (~/.cache/noblesilk/passed): for each crate, and for its tests, what was built of it
and what the prover said; for each edit of must-fail/ that it was refused. All goes by the sums of everything that was read: the
files of the crate and of those below it, crates.txt, HANDLES, and the kit. So what is given back is what the prover would make
again.
"""
import contextlib
import glob
import hashlib
import os
import shutil
import tempfile
import time

PLACE = f"{os.environ.get('XDG_CACHE_HOME') or os.path.expanduser('~/.cache')}/noblesilk/passed"
# Days after which something that no run asked for is removed.
KEPT_FOR = 30
SAID = "said"


def sum_of(*parts):
    return hashlib.sha256(repr(parts).encode()).hexdigest()


def contents(file):
    with open(file, "rb") as it:
        return hashlib.sha256(it.read()).hexdigest()


def sums_below(folder):
    """The sums of the files of a folder, by their names there."""
    files = (f"{at}/{name}" for at, _, names in os.walk(folder) for name in names)
    return {os.path.relpath(it, folder): contents(it) for it in files}


class Store:
    """What was passed, each under the sum of all that it was made from."""

    def __init__(self, rt, anew=False):
        self.rt, self.anew = rt, anew
        files = [__file__, f"{rt.KIT}/KIT-ID", f"{rt.KIT}/WHAT", *sorted(glob.glob(f"{rt.KIT}/bin/*"))]
        self.base = sum_of([contents(it) for it in files], rt.Crate.allowed)
        with contextlib.suppress(OSError):
            os.makedirs(PLACE, exist_ok=True)

    def key(self, crate, *what):
        return f"{PLACE}/{sum_of(self.base, crate.name, crate.stamp(), *what)}"

    def give(self, key, folder):
        """Copies what is kept into a folder, and returns what was said; None if there is nothing, or it isn't as it was."""
        if self.anew or not os.path.isdir(key):
            return None
        try:
            with open(f"{key}/sums", encoding="utf-8") as it:
                kept = it.read()
            if kept != repr(sorted(sums_below(f"{key}/made").items())):
                return None
            # (as new, so that it stays)
            os.utime(key)
            for name in os.listdir(f"{key}/made"):
                if name != SAID:
                    self.copy(f"{key}/made/{name}", f"{folder}/{name}")
            with open(f"{key}/made/{SAID}", encoding="utf-8") as it:
                return it.read()
        except (OSError, shutil.Error):
            return None

    @staticmethod
    def copy(source, to):
        shutil.rmtree(to, ignore_errors=True)
        with contextlib.suppress(FileNotFoundError):
            os.remove(to)
        os.makedirs(os.path.dirname(to), exist_ok=True)
        (shutil.copytree if os.path.isdir(source) else shutil.copy2)(source, to)

    def keep(self, key, folder, names, said):
        """Keeps these files and folders, and what was said; a store that can't be written keeps nothing."""
        with contextlib.suppress(OSError, shutil.Error), tempfile.TemporaryDirectory(dir=PLACE) as room:
            os.mkdir(f"{room}/it")
            os.mkdir(f"{room}/it/made")
            for name in names:
                self.copy(f"{folder}/{name}", f"{room}/it/made/{name}")
            with open(f"{room}/it/made/{SAID}", "w", encoding="utf-8") as it:
                it.write(said)
            with open(f"{room}/it/sums", "w", encoding="utf-8") as it:
                it.write(repr(sorted(sums_below(f"{room}/it/made").items())))
            shutil.rmtree(key, ignore_errors=True)
            os.rename(f"{room}/it", key)

    def forget(self):
        for it in glob.glob(f"{PLACE}/*"):
            with contextlib.suppress(OSError):
                if time.time() - os.stat(it).st_mtime > KEPT_FOR * 86400:
                    shutil.rmtree(it)

    def made_of(self, crate, tests):
        """The names of what `rt ci` leaves of a crate, or of its tests, in its folder out."""
        names = [f"{crate.name}{it}" for it in self.rt.BACKENDS.values()] if crate.is_program else [f"rlib/{crate.name}.rlib"]
        names = [f"{crate.name}_tests"] if tests else [] if crate.is_static else names
        return [it for it in names if os.path.exists(f"{crate.folder}/out/{it}")]

    def through(self, crate, tests, prove):
        """Gives what is kept of a crate, or of its tests, or proves it and keeps that; returns the status."""
        key, out = self.key(crate, tests), crate.out
        said = self.give(key, f"{crate.folder}/out")
        if said is not None:
            print(said, end="", file=out, flush=True)
            return 0
        with tempfile.TemporaryFile("w+", errors="replace") as crate.out:
            try:
                status = prove()
                crate.out.seek(0)
                said = crate.out.read()
            finally:
                crate.out = out
        print(said, end="", file=out, flush=True)
        if not status and key == self.key(crate, tests):
            self.keep(key, f"{crate.folder}/out", self.made_of(crate, tests), said)
        return status
