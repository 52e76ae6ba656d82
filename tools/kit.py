"""Where the Rattle kit lies, for the scripts that call its programs."""
import os
import re
import subprocess
import sys

# Memory that the proof of a crate may take, in bytes.
NEEDS = 4_000_000_000

ROOT = os.path.dirname(os.path.dirname(os.path.realpath(__file__)))


def ask(script, word):
    """What `rt WORD` prints; if it doesn't run, the script ends with one sentence."""
    try:
        told = subprocess.run(["rt", word], stdin=subprocess.DEVNULL, capture_output=True, text=True, check=True)
    except FileNotFoundError:
        sys.exit(f"{script}: there is no rt on the PATH: it is the Rattle kit's command, see \"Install\" in {ROOT}/README.md")
    except (OSError, subprocess.CalledProcessError) as error:
        sys.exit(f"{script}: the Rattle kit's rt does not run ({error}), see \"Install\" in {ROOT}/README.md")
    return told.stdout.strip()


def folder(script):
    """The kit's folder."""
    return os.path.dirname(ask(script, "doc"))


def wanted():
    """The kit that the repository is proved with."""
    with open(f"{ROOT}/KIT", encoding="utf-8") as it:
        return it.read().strip()


def lanes():
    """How many proofs run at once: one on each core, as far as memory allows."""
    with open("/proc/meminfo", encoding="ascii") as it:
        free = 1024 * int(re.search(r"MemAvailable:\s+(\d+)", it.read())[1])
    return max(1, min(len(os.sched_getaffinity(0)), free // NEEDS))


def warn(script):
    """Says if the kit is not the one in the file KIT."""
    found = ask(script, "version")
    if found != wanted():
        print(f"{script}: this kit is {found}, and the repository is proved with {wanted()}", file=sys.stderr)
