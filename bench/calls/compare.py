#!/usr/bin/env python3
"""Times a server's calls that take 1,000,000 requests of one 60-byte message each and answer each with as much, from bytes to bytes, on
one stream and on 100, beside the connection alone that reads the same bytes and sends as many.

usage: bench/calls/compare.py

Run it by hand on a quiet machine, with rt at hand. The gate does not run it.
"""
import pathlib
import sys

HERE = pathlib.Path(__file__).resolve().parent
sys.path.insert(0, str(HERE.parent))
from proved import TOP, build, compare  # noqa: E402

PAIRS = [("calls-1", "connection-1"), ("calls-100", "calls-1")]


def crates() -> dict[str, str]:
    """The crates of calls and of the connection and those below them, with their lines of crates.txt."""
    lines = (line.split(":", 1) for line in (TOP / "crates.txt").read_text().splitlines() if ":" in line and not line.startswith("#"))
    known = {name.split()[0]: (name.strip(), rest.strip()) for name, rest in lines}
    below = known["call_tests"][1]
    return {known[name][0]: known[name][1] for name in below.split() if name in known} | {"program": below + " anyhow"}


def main() -> None:
    proved = build(HERE / "proved_calls.rt.in", crates())
    for word, base in PAIRS:
        compare(f"{word} beside {base}", [str(proved), base], [str(proved), word])


main()
