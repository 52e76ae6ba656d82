"""The program that checks hostile texts: tests/hostile.c, made with a library for C."""
import os
import shlex
import shutil
import subprocess

HERE = os.path.dirname(os.path.realpath(__file__))
FLAGS = "-std=c11", "-Wall", "-Wextra", "-Wpedantic", "-Werror", "-O2"


COMPILER = shlex.split(os.environ.get("CC") or "cc")


def is_left_out():
    """Whether there is no compiler; then that is said, and a verdict."""
    if shutil.which(COMPILER[0]):
        return False
    print(f"left out: there is no {COMPILER[0]}\n0 passed, 0 failed")
    return True


def compiled(room, *library):
    """The program, linked with these files."""
    program = f"{room}/hostile"
    sources = [f"{HERE}/{it}.c" for it in ("hostile", "lexis")]
    subprocess.run([*COMPILER, *FLAGS, f"-I{os.path.dirname(HERE)}/include", *sources, *library, "-o", program], check=True)
    return program


def run(program, orders, *words, **variables):
    """Runs the program with these orders, and gives the lines that it writes."""
    how = {"stdin": subprocess.PIPE, "stdout": subprocess.PIPE, "env": {**os.environ, **variables}}
    with subprocess.Popen([program, *words], **how) as ran:
        out = ran.communicate(b"".join(orders))[0]
    lines = out.decode().splitlines()
    if ran.returncode not in (0, 1):
        lines += [f"FAILED: the program ended with {ran.returncode}", "0 passed, 1 failed"]
    return lines
