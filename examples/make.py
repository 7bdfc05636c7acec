#!/usr/bin/env python3
"""Writes the example inputs of `gribi apply`: streams of ModifyRequests, each behind a zero byte and its length.

usage: examples/make.py          writes first.bin and routes.bin beside this file

A message is spelled by its fields in the numbers of proto/gribi.proto: a whole number is a varint field, text and a
list of fields are length-delimited ones.
"""
import pathlib

ADD, DELETE = 1, 3


def varint(number):
    out = bytearray()
    while number >= 128:
        out.append(number % 128 + 128)
        number //= 128
    out.append(number)
    return bytes(out)


def message(*fields):
    """The bytes of a message: each field is its number and a whole number, a text or the bytes of a message."""
    out = b""
    for number, value in fields:
        if isinstance(value, int):
            out += varint(number * 8) + varint(value)
        else:
            value = value.encode() if isinstance(value, str) else value
            out += varint(number * 8 + 2) + varint(len(value)) + value
    return out


def item(body):
    """A message of a stream: no compression, and its length in four bytes."""
    return b"\0" + len(body).to_bytes(4, "big") + body


def wrapped(value):
    """google.protobuf's UInt64Value or StringValue."""
    return message((1, value))


def operation(number, op, entry):
    return (1, message((1, number), (2, "DEFAULT"), (3, op), entry, (11, message((2, 1)))))


# one primary, entries that stay when it goes, and acknowledgements of the RIB
PARAMETERS = item(message((2, message((1, 1), (2, 1)))))
ELECTION = item(message((3, message((2, 1)))))

NEXT_HOP = (8, message((1, 1), (2, b"")))
NEXT_HOP_AT = (8, message((1, 1), (2, message((1, wrapped("192.0.2.1"))))))
GROUP = (7, message((1, 1), (2, message((1, message((1, 1), (2, message((1, wrapped(1))))))))))
ROUTE = (4, message((1, "198.51.100.0/24"), (2, message((1, wrapped(1))))))
ONLY_GROUP = (7, message((1, 1)))

FILES = {
    "first.bin": PARAMETERS + ELECTION + item(message(operation(1, ADD, NEXT_HOP))),
    "routes.bin": PARAMETERS
    + ELECTION
    + item(message(operation(1, ADD, NEXT_HOP_AT), operation(2, ADD, GROUP), operation(3, ADD, ROUTE)))
    + item(message(operation(4, DELETE, ONLY_GROUP))),
}

if __name__ == "__main__":
    for name, text in FILES.items():
        (pathlib.Path(__file__).parent / name).write_bytes(text)
