#!/usr/bin/env python3
"""Counts the calls that threads make in a second through `table_lock` and through std's `Mutex`, round one machine
that does nothing.

usage: bench/lock/compare.py

Run it by hand on a quiet machine, with rt at hand. The gate does not run it. Each round times the two one after the
other, in one process.
"""
import os
import pathlib
import re
import subprocess
import sys

HERE = pathlib.Path(__file__).resolve().parent
sys.path.insert(0, str(HERE.parent))
from proved import build  # noqa: E402

ROUNDS = 5
CRATES = {"table_lock may_wait=5": "atomic_table", "program": "table_lock"}
OTHERS = {
    "src/machine.rt": HERE / "machine.rt.in",
    "proofs/Lib.antt": HERE / "Lib.antt.in",
    "proofs/Crosses.antt": HERE / "Crosses.antt.in",
    "proofs/by_lock/Invariants.antt": HERE / "by_lock.antt.in",
    "proofs/two_by_lock/Answers.antt": HERE / "two_by_lock.antt.in",
    "proofs/in_four/Answers.antt": HERE / "in_four.antt.in",
}
LINE = re.compile(r"(\d+) threads, (\d+) calls: lock (\d+) us, mutex (\d+) us")


def main() -> None:
    proved = build(HERE / "proved_lock.rt.in", CRATES, OTHERS)
    ratios: dict[str, list[float]] = {}
    for _ in range(ROUNDS):
        load = os.getloadavg()[0]
        told = subprocess.run([str(proved)], stdout=subprocess.PIPE, check=True, text=True).stdout
        for threads, calls, lock, mutex in LINE.findall(told):
            ours, base = int(calls) / int(lock), int(calls) / int(mutex)
            ratios.setdefault(threads, []).append(base / ours)
            print(f"threads {threads}: lock {ours:.2f}, mutex {base:.2f} million calls a second, ratio {base / ours:.2f}, load {load:.2f}")
    for threads, each in ratios.items():
        print(f"threads {threads}: median ratio {sorted(each)[len(each) // 2]:.2f}")


main()
