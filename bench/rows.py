#!/usr/bin/env python3
"""Times the lists of rows, by the program of crates/rows_bench.

Build it first by `rt run` in crates/rows_bench, then: python3 bench/rows.py [RUNS]

Each figure is the least of RUNS runs (5, where it isn't given), less that of a run which only does what
comes before: starting the program for `fill`, the fill for the other works on receipts, and for events
making them and the state, or making them ready too.
"""

import pathlib
import subprocess
import sys
import time

PROGRAM = pathlib.Path(__file__).parent.parent / "crates/rows_bench/out/rows_bench"

WORKS = [
    ("fill", None, "a million puts in rising order"),
    ("middle", "fill", "ten thousand puts in the middle of a million rows"),
    ("merge", "fill", "a merge of ten thousand rows behind a million"),
    ("delete", "fill", "a walk over a million rows that drops a hundred"),
    ("prepare 10000", "state 10000", "making 10,000 events ready for sections of 10,000 rows"),
    ("prepare 20000", "state 20000", "making 20,000 events ready for sections of 20,000 rows"),
    ("apply 10000", "prepare 10000", "applying 10,000 events to sections of 10,000 rows"),
    ("apply 20000", "prepare 20000", "applying 20,000 events to sections of 20,000 rows"),
]


def seconds(work, runs):
    words = [PROGRAM] if work is None else [PROGRAM, *work.split()]
    times = []
    for _ in range(runs):
        start = time.perf_counter()
        subprocess.run(words, check=True)
        times.append(time.perf_counter() - start)
    return min(times)


def main():
    runs = int(sys.argv[1]) if len(sys.argv) > 1 else 5
    works = {name for work, before, _ in WORKS for name in (work, before)}
    taken = {work: seconds(work, runs) for work in works}
    for work, before, text in WORKS:
        print(f"{text}: {1000 * (taken[work] - taken[before]):.1f} ms")


main()
