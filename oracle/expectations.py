"""Compare the stored expectations with what the model generates, or write them.

    python3 oracle/expectations.py           says which differ; exit 1 if one does
    python3 oracle/expectations.py --write   writes them all
"""

import sys
from collections.abc import Callable
from itertools import zip_longest
from pathlib import Path

import event_files
import replay
import table_files
import tables
from checks.unit_calls import run_script
from unit486_model import block_table, events
from unit486_model.board import TABLE

ROOT = Path(__file__).resolve().parent.parent


def sample(name: str) -> bytes:
    return (ROOT / "samples" / name).read_bytes()


def sample_rows() -> bytes:
    """What the program prints for README's sample."""
    return events.run_program(sample("batch.events"))


def plant_rows() -> bytes:
    """The same events, served by the plant's table."""
    table = block_table.load(TABLE, sample("plant.table")).table
    return events.run(table, sample("batch.events"))


def expectations() -> list[tuple[str, Callable[[], str | bytes]]]:
    """The stored files, each with what it must hold: any bytes in an event file or a table file,
    text elsewhere."""
    return [
        ("crates/directory_tables/stdout", tables.directory_tables),
        *replay.expectations(),
        *event_files.expectations(),
        *table_files.expectations(),
        ("samples/batch.rows", sample_rows),
        ("samples/plant.rows", plant_rows),
    ]


def bytes_of(generated: str | bytes) -> bytes:
    return generated.encode() if isinstance(generated, str) else generated


def first_difference(stored: bytes, generated: bytes) -> int:
    """The first line in which the two differ, from 1."""
    pairs = zip_longest(stored.split(b"\n"), generated.split(b"\n"))
    return next(line for line, (old, new) in enumerate(pairs, start=1) if old != new)


def agrees(path: str, generated: bytes) -> bool:
    """Say where the stored file is not what the model generates."""
    stored = ROOT / path
    if not stored.is_file():
        print(f"{path}: missing")
        return False
    found = stored.read_bytes()
    if found == generated:
        return True
    print(f"{path}: differs, first in line {first_difference(found, generated)}")
    return False


def write(path: str, generated: bytes) -> bool:
    """Store what the model generates."""
    (ROOT / path).parent.mkdir(parents=True, exist_ok=True)
    (ROOT / path).write_bytes(generated)
    return True


def extra_files() -> list[str]:
    """Files that stand among a program's data and are not generated."""
    listed = {ROOT / path for path, _ in expectations()}
    folders = {path.parent for path in listed if path.parent.name == "data"}
    found = [path for folder in folders for path in folder.glob("*") if path not in listed]
    return sorted(str(path.relative_to(ROOT)) for path in found)


def main(words: list[str]) -> int:
    if words not in ([], ["--write"]):
        print("usage: expectations.py [--write]", file=sys.stderr)
        return 2
    step = write if words else agrees
    done = [step(path, bytes_of(generate())) for path, generate in expectations()]
    print(f"{sum(done)} of {len(done)} files {'written' if words else 'as generated'}")
    for path in extra_files():
        print(f"{path}: not generated")
    return 0 if all(done) and not extra_files() else 1


if __name__ == "__main__":
    sys.exit(run_script(main))
