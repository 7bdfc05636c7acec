#!/usr/bin/env python3
"""Times a connection of HTTP/2 that reads, and that writes, 1,000,000 DATA frames of one 60-byte message each, on one
stream and on 100, beside a plain Rust reader and writer with a map of streams and their windows, and compares their counts.

usage: bench/connection/compare.py

Run it by hand on a quiet machine, with rustc and rt at hand. The gate does not run it.
"""
import pathlib
import subprocess
import sys
import tempfile

HERE = pathlib.Path(__file__).resolve().parent
sys.path.insert(0, str(HERE.parent))
from proved import TOP, build, compare  # noqa: E402

WORDS = ["read-1", "read-100", "write-1", "write-100"]


def crates() -> dict[str, str]:
    """The connection's crate and those below it, with their lines of crates.txt."""
    lines = (line.split(":", 1) for line in (TOP / "crates.txt").read_text().splitlines() if ":" in line and not line.startswith("#"))
    known = {name.strip(): rest.strip() for name, rest in lines}
    wanted = [name for name in known["h2_conn"].split() if name in known] + ["h2_conn"]
    return {name: known[name] for name in wanted} | {"program": known["h2_conn"] + " h2_conn anyhow"}


def main() -> None:
    plain = pathlib.Path(tempfile.mkdtemp()) / "plain_connection"
    subprocess.run(["rustc", "--edition", "2021", "-O", "-o", str(plain), str(HERE / "plain_connection.rs")], check=True)
    proved = build(HERE / "proved_connection.rt.in", crates())
    for word in WORDS:
        compare(word, [str(plain), word], [str(proved), word])


if __name__ == "__main__":
    main()
