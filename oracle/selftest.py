"""The papers' tables and examples, run against the model; random lists of calls; call scripts;
event files; table files.

Prints one line per group and `ok` at the end; stops with exit 1 at the first mismatch.
"""

import sys
from collections.abc import Callable

from checks import (
    altered,
    altered_ranges,
    altered_sizes,
    altered_tables,
    block_table,
    carried,
    diagnostics,
    eight_bytes,
    event_files,
    flush_rules,
    random_lists,
    range_lists,
    read_only,
    readings,
    replays,
    table_files,
    vectors,
)
from checks.unit_calls import Mismatch, done

GROUPS: list[tuple[str, Callable[[], None]]] = [
    ("LRU updates, victims, four fills", vectors.lru_table),
    ("lowest invalid way", vectors.lowest_invalid_way),
    ("CD and NW", vectors.modes),
    ("flushes", vectors.flushes),
    ("sizing tables 3-10/7-1 and 3-11/7-2", vectors.sizing_tables),
    ("flag sequences", vectors.flag_table),
    ("sizing examples", vectors.sizing_examples),
    ("burst order, table 3-9", vectors.burst_order),
    ("fill vectors", vectors.fill_vectors),
    ("bench table", vectors.bench_table),
    ("program start", vectors.program_start),
    ("program example", vectors.program_example),
    ("readings of document 01", readings.readings),
    ("readings of C-11", diagnostics.readings),
    ("readings of C-12, and its timing", carried.readings),
    ("readings of C-15", eight_bytes.readings),
    ("readings of C-16", block_table.readings),
    ("readings of C-17", read_only.readings),
    ("first victims under either flush rule", flush_rules.first_victims),
    ("random lists against the plain memory", random_lists.random_lists),
    ("random lists with test calls", random_lists.lists_with_test_calls),
    ("random lists with ranges", range_lists.lists_with_ranges),
    ("random lists under either flush rule", flush_rules.either_rule),
    ("wrong flush rules", flush_rules.wrong_rules),
    ("altered carrying reads", altered.altered_models),
    ("altered sizes", altered_sizes.altered_models),
    ("altered tables", altered_tables.altered_models),
    ("altered ranges", altered_ranges.altered_models),
    ("refused calls", random_lists.refused_calls),
    ("call scripts", replays.replays),
    ("event files", event_files.event_file_checks),
    ("table files", table_files.table_file_checks),
]


def main(words: list[str]) -> int:
    if words:
        print("usage: selftest.py", file=sys.stderr)
        return 2
    for name, group in GROUPS:
        done.clear()
        try:
            group()
        except Mismatch as mismatch:
            print(f"{name}: {mismatch}")
            return 1
        print(f"{name}: {done['checks']} checks")
    print("ok")
    return 0


if __name__ == "__main__":
    sys.exit(main(sys.argv[1:]))
