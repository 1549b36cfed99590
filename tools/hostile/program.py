"""The program that the hostile runs try, and how one run of it is made."""
import os
import subprocess
import sys
from pathlib import Path

TOP = Path(__file__).resolve().parent.parent.parent
# longer than any run takes; a run that takes longer is one that hangs
SECONDS = 10


def program(given):
    """The path of the program: the one that is given,
    or what `rt run` builds of `crates/sspi_run`."""
    if given:
        return os.path.abspath(given)
    folder = TOP / "crates" / "sspi_run"
    ran = subprocess.run(
        ["rt", "run", "--", "gen", "1"],
        cwd=folder,
        stdin=subprocess.DEVNULL,
        stdout=subprocess.DEVNULL,
    )
    if ran.returncode != 0:
        sys.exit("the program is not built")
    return str(folder / "out" / "sspi_run")


def run(program, words, text, environment=None):
    """The exit status of a run, below 0 for a signal and None where it hangs, and what it wrote."""
    try:
        ran = subprocess.run(
            [program, *words],
            input=text,
            env=environment or {},
            stdout=subprocess.PIPE,
            stderr=subprocess.DEVNULL,
            timeout=SECONDS,
            check=False,
        )
    except subprocess.TimeoutExpired:
        return None, b""
    return ran.returncode, ran.stdout
