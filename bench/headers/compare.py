#!/usr/bin/env python3
"""Times reading header blocks with `hpack_tables`, and Huffman strings with `hpack_huffman`, beside a plain Rust
decoder, and compares their counts.

usage: bench/headers/compare.py [blocks | strings]

Run it by hand on a quiet machine, with rustc and rt at hand. The gate does not run it.
"""
import pathlib
import struct
import subprocess
import sys
import tempfile

HERE = pathlib.Path(__file__).resolve().parent
sys.path.insert(0, str(HERE.parent))
from proved import build, run  # noqa: E402

ROUNDS = 5
BLOCKS = [
    "203fe11f838644132f67726962692e67524942492f4d6f64696679418cf1e3c2e5f23a6ba0ab90f4ff"
    "5f106170706c69636174696f6e2f677270634002746508747261696c657273",
    "8386c1c0bfbe",
    "828684be5886a8eb10649cbf",
    "828785bf408825a849e95ba97d7f8925a849e95bb8e8b4bf",
]
STRINGS = [
    "f1e3c2e5f23a6ba0ab90f4ff",
    "a8eb10649cbf",
    "25a849e95ba97d7f",
    "25a849e95bb8e8b4bf",
    "aec3771a4b",
    "9d29ad171863c78f0b97c8e9ae82ae43d3",
]
CRATES = {
    "vec_list": "",
    "hpack_huffman": "",
    "hpack_tables": "vec_list hpack_huffman http_header bytes",
    "program": "vec_list hpack_tables anyhow",
}


def compare(name: str, parts: list[str], words: list[str], plain: pathlib.Path, proved: pathlib.Path) -> None:
    bytes_of = [bytes.fromhex(part) for part in parts]
    given = b"".join(struct.pack(">H", len(part)) + part for part in bytes_of)
    ratios = []
    for _ in range(ROUNDS):
        base, first = run([str(plain), "200000", *words], given)
        ours, second = run([str(proved)])
        ratios.append(ours / base)
        print(f"{name}: plain {base:.3f} s, proved {ours:.3f} s, ratio {ours / base:.2f}, same output: {first == second}")
    print(f"{name}: median ratio {sorted(ratios)[len(ratios) // 2]:.2f}")


def main() -> None:
    plain = pathlib.Path(tempfile.mkdtemp()) / "plain_headers"
    subprocess.run(["rustc", "--edition", "2021", "-O", "-o", str(plain), str(HERE / "plain_headers.rs")], check=True)
    if "strings" not in sys.argv:
        compare("blocks", BLOCKS, [], plain, build(HERE / "proved_headers.rt.in", CRATES))
    if "blocks" not in sys.argv:
        crates = {"hpack_huffman": "", "program": "hpack_huffman anyhow"}
        compare("strings", STRINGS, ["strings"], plain, build(HERE / "proved_strings.rt.in", crates))


main()
