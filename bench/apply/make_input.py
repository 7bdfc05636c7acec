#!/usr/bin/env python3
"""Writes a plain input of `gribi apply` to standard output: parameters, an election, then ADDs of next hops.

usage: make_input.py OPERATIONS NEXT_HOPS [random]

With `random` the next hops come in an order drawn from a fixed seed.
"""
import random
import sys


def varint(n: int) -> bytes:
    out = bytearray()
    while n >= 128:
        out.append(n % 128 + 128)
        n //= 128
    out.append(n)
    return bytes(out)


def number(field: int, value: int) -> bytes:
    return varint(field * 8) + varint(value) if value else b""


def piece(field: int, value: bytes) -> bytes:
    return varint(field * 8 + 2) + varint(len(value)) + value


def item(message: bytes) -> bytes:
    return b"\0" + len(message).to_bytes(4, "big") + message


def main() -> None:
    operations, hops = int(sys.argv[1]), int(sys.argv[2])
    out = sys.stdout.buffer
    out.write(item(piece(2, number(1, 1) + number(2, 1))))
    election = number(2, 1)
    out.write(item(piece(3, election)))
    draw = random.Random(1) if "random" in sys.argv else None
    for k in range(operations):
        index = draw.randrange(hops) if draw else k % hops
        hop = number(1, index + 1) + piece(2, b"")
        operation = number(1, k + 1) + piece(2, b"DEFAULT") + number(3, 1) + piece(8, hop) + piece(11, election)
        out.write(item(piece(1, operation)))


if __name__ == "__main__":
    main()
