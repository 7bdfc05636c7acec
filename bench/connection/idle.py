#!/usr/bin/env python3
"""Says how much memory an idle connection of a server takes: 10,000 that have greeted their client, beside none.

usage: bench/connection/idle.py

Run it by hand, with rt at hand. The gate does not run it.
"""
import pathlib
import subprocess
import sys

HERE = pathlib.Path(__file__).resolve().parent
sys.path[:0] = [str(HERE.parent), str(HERE)]
from compare import crates  # noqa: E402
from proved import build  # noqa: E402

COUNT = 10_000


def most(words: list[str]) -> int:
    """The most memory that a run takes, in KiB."""
    line = "import resource, subprocess, sys; subprocess.run(sys.argv[1:], check=True, stdout=subprocess.DEVNULL); print(resource.getrusage(resource.RUSAGE_CHILDREN).ru_maxrss)"
    return int(subprocess.run([sys.executable, "-c", line, *words], stdout=subprocess.PIPE, check=True).stdout)


def main() -> None:
    proved = build(HERE / "idle.rt.in", crates())
    few, many = most([str(proved), "none"]), most([str(proved), "many"])
    print(f"none: {few} KiB, {COUNT} connections: {many} KiB, {(many - few) * 1024 // COUNT} bytes a connection")


if __name__ == "__main__":
    main()
