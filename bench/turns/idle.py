#!/usr/bin/env python3
"""Says what a turn costs in which a connection has nothing to do: 10,000,000 such turns of one with an open Modify call, over a link in memory.

usage: bench/turns/idle.py

Run it by hand, with rt at hand. The gate does not run it.
"""
import pathlib
import sys

HERE = pathlib.Path(__file__).resolve().parent
sys.path[:0] = [str(HERE.parent)]
from proved import TOP, build, run  # noqa: E402

TURNS = 10_000_000


def crates() -> dict[str, str]:
    """The crates that serve a link and those below them, with their lines of crates.txt."""
    lines = (line.split(":", 1) for line in (TOP / "crates.txt").read_text().splitlines() if ":" in line and not line.startswith("#"))
    known = {name.split()[0]: (name.strip(), rest.strip()) for name, rest in lines}
    below = known["server_tests"][1]
    return {known[name][0]: known[name][1] for name in below.split() if name in known} | {"program may_wait=3": below + " anyhow"}


def main() -> None:
    proved = build(HERE / "idle.rt.in", crates())
    for _ in range(5):
        none, idle = run([str(proved), "none"])[0], run([str(proved), "idle"])[0]
        print(f"{(idle - none) / TURNS * 1e9:.0f} ns a turn")


main()
