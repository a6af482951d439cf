"""The program `replay`: its scripts, its arguments and what it must print, as the model gives it.

The lines of a script, and the rows, are described in `scripts/script_unit.py`.
"""

import sys
from collections.abc import Callable
from functools import cache

from checks.unit_calls import run_script
from scripts.bench import bench
from scripts.board import board
from scripts.burst import burst
from scripts.carried import carried
from scripts.diagnostics import diagnostics
from scripts.eight_bytes import eight_bytes
from scripts.ken import ken
from scripts.modes import modes
from scripts.numbers import numbers
from scripts.parity import parity
from scripts.random_calls import random_scripts
from scripts.read_only import read_only
from scripts.sizing import sizing
from scripts.states import states
from scripts.views import views
from scripts.writer import Script

CRATE = "crates/replay"


@cache
def scripts() -> tuple[Script, ...]:
    """Tables and examples first, then random calls."""
    records = (bench(), sizing(), burst(), ken())
    rules = (modes(), parity(), numbers(), states(), board(), views())
    requests = (diagnostics(), carried(), eight_bytes(), read_only())
    return (*records, *rules, *requests, *random_scripts())


def arguments() -> str:
    return "".join(f"{script.name}\n" for script in scripts())


def printed() -> str:
    """The rows of each script below its name."""
    return "".join(f"{script.name}\n{script.printed()}" for script in scripts())


def expectations() -> list[tuple[str, Callable[[], str]]]:
    """The program's files, each with what it must hold."""
    data = [(f"{CRATE}/data/{script.name}", script.text) for script in scripts()]
    return [*data, (f"{CRATE}/args", arguments), (f"{CRATE}/stdout", printed)]


def main(words: list[str]) -> int:
    if words:
        print("usage: replay.py", file=sys.stderr)
        return 2
    for made in scripts():
        print(f"{made.name}: {made.met['calls']} calls in {len(made.text())} bytes")
    return 0


if __name__ == "__main__":
    sys.exit(run_script(main))
