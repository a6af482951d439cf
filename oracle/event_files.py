"""The program `event_files`: its event files, its arguments and what it must print.

The files are made in `inputs/`; the rows are those of the model's program, `unit486_model.events`.
"""

import sys
from collections.abc import Callable
from functools import cache

from checks.unit_calls import run_script
from inputs.boundaries import boundary_files
from inputs.endings import ending_files, example_file
from inputs.hot import hot_files
from inputs.malformed import malformed_files
from inputs.masters import master_files
from inputs.modes import mode_files
from inputs.random_events import random_files
from inputs.sizes import size_files
from inputs.writer import EventFile

CRATE = "crates/event_files"


@cache
def files() -> tuple[EventFile, ...]:
    """Document 01's example first, the longest files last."""
    written = (*hot_files(), *mode_files(), *master_files(), *boundary_files(), *malformed_files())
    return (example_file(), *written, *random_files(), *ending_files(), *size_files())


def arguments() -> bytes:
    return "".join(f"{file.name}\n" for file in files()).encode()


def printed() -> bytes:
    """The whole output for each file below its name."""
    return b"".join(file.name.encode() + b"\n" + file.printed() for file in files())


def expectations() -> list[tuple[str, Callable[[], bytes]]]:
    """The program's files, each with what it must hold."""
    data = [(f"{CRATE}/data/{file.name}", file.text) for file in files()]
    return [*data, (f"{CRATE}/args", arguments), (f"{CRATE}/stdout", printed)]


def main(words: list[str]) -> int:
    if words:
        print("usage: event_files.py", file=sys.stderr)
        return 2
    for made in files():
        print(f"{made.name}: {len(made.lines)} lines in {len(made.text())} bytes")
    return 0


if __name__ == "__main__":
    sys.exit(run_script(main))
