"""The crates of a copy of the repository, and whether what was made of their sources is up to date."""
import glob
import os
import re
import sys


def listed(top):
    """What each crate uses, of the repository and of the kit, in the order of crates.txt."""
    with open(f"{top}/crates.txt", encoding="utf-8") as it:
        lines = [line.partition(":") for line in it if ":" in line and not line.startswith("#")]
    # (words such as staticlib may follow a name)
    return {words.split()[0]: rest.split() for words, _, rest in lines}


def uses(top):
    """What each crate uses of the repository."""
    found = listed(top)
    return {name: [it for it in rest if it in found] for name, rest in found.items()}


def below(crate, used):
    """A crate and those that it depends on, the lowest first."""
    found = []
    for it in used[crate]:
        found += [low for low in below(it, used) if low not in found]
    return [*found, crate]


def code(top, crate):
    """The files of a crate's code."""
    return glob.glob(f"{top}/crates/{crate}/src/**/*.rt", recursive=True)


def about(top, crate):
    """The first sentence of a crate's root file."""
    (root,) = [it for it in (f"{top}/crates/{crate}/src/{name}.rt" for name in ("lib", "main")) if os.path.exists(it)]
    head = []
    with open(root, encoding="utf-8") as it:
        for line in it:
            if not line.startswith("//!"):
                break
            head.append(line[3:].strip())
    sentence = re.match(r"(.*?)\.(?: |$)", " ".join(head))
    if not sentence:
        sys.exit(f"{root} does not begin with a sentence after //!")
    return sentence[1]


def is_fresh(made, top, crates):
    """Whether a file exists that is as new as crates.txt and the code of these crates."""
    try:
        own = os.stat(made).st_mtime_ns
    except (FileNotFoundError, PermissionError):
        return False
    files = [f"{top}/crates.txt", *(it for crate in crates for it in code(top, crate))]
    return all(os.stat(it).st_mtime_ns <= own for it in files)
