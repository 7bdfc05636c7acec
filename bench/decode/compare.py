#!/usr/bin/env python3
"""Times decoding a ModifyRequest of 32 IPv4 operations with `gribi_messages` beside a plain Rust decoder, and compares
what they gave.

usage: bench/decode/compare.py

Run it by hand on a quiet machine, with rustc and rt at hand. The gate does not run it.
"""
import pathlib
import subprocess
import sys
import tempfile

HERE = pathlib.Path(__file__).resolve().parent
sys.path.insert(0, str(HERE.parent))
from proved import build, run  # noqa: E402

ROUNDS = 5
CRATES = {
    "vec_list": "",
    "proto_wire": "",
    "schema_numbers": "",
    "proto_schema": "proto_wire schema_numbers",
    "addr_text": "",
    "aft_entries": "vec_list addr_text",
    "aft_messages": "vec_list proto_wire schema_numbers proto_schema addr_text aft_entries",
    "gribi_messages": "vec_list proto_wire schema_numbers proto_schema aft_entries aft_messages",
    "program": "vec_list proto_wire schema_numbers gribi_messages anyhow",
}


def number(field: int, value: int) -> bytes:
    return bytes([field * 8, value])


def piece(field: int, value: bytes) -> bytes:
    return bytes([field * 8 + 2, len(value)]) + value


def request() -> bytes:
    leaves = piece(1, number(1, 1)) + piece(2, piece(1, b"DEFAULT"))
    key = piece(1, b"198.51.100.0/24") + piece(2, leaves)
    out = b""
    for k in range(1, 33):
        out += piece(1, number(1, k) + piece(2, b"DEFAULT") + number(3, 1) + piece(4, key) + piece(11, number(2, 1)))
    return out


def main() -> None:
    plain = pathlib.Path(tempfile.mkdtemp()) / "plain_decode"
    subprocess.run(["rustc", "--edition", "2021", "-O", "-o", str(plain), str(HERE / "plain_decode.rs")], check=True)
    proved = build(HERE / "proved_decode.rt.in", CRATES)
    ratios = []
    for _ in range(ROUNDS):
        base, first = run([str(plain), "20000"], request())
        ours, second = run([str(proved)])
        ratios.append(ours / base)
        print(f"plain {base:.3f} s, proved {ours:.3f} s, ratio {ours / base:.2f}, same output: {first == second}")
    print(f"median ratio {sorted(ratios)[len(ratios) // 2]:.2f}")


main()
