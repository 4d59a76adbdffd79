#!/usr/bin/env python3
"""Writes a module of about so many bytes: many functions of plain instructions, in the shortest spelling.

usage: large_module.py BYTES OUT
"""
import sys


def unsigned(number):
    out = bytearray()
    while number >= 128:
        out.append(number % 128 + 128)
        number //= 128
    out.append(number)
    return bytes(out)


def sized(contents):
    return unsigned(len(contents)) + contents


def section(number, contents):
    return bytes([number]) + sized(contents)


def name(text):
    return sized(text.encode())


def body(seed):
    """Locals, and 400 times: a local, a constant, an operator, a local."""
    code = bytearray([1, 4, 0x7F])
    for at in range(400):
        code += bytes([0x20, at % 4, 0x41, (seed + at) % 64, (0x6A, 0x6B, 0x71, 0x73)[at % 4], 0x21, (at + 1) % 4])
    code.append(0x0B)
    return sized(bytes(code))


def module(most):
    bodies = []
    size = 0
    while size < most:
        bodies.append(body(len(bodies)))
        size += len(bodies[-1])
    count = len(bodies)
    out = bytearray(b"\0asm\x01\0\0\0")
    out += section(1, bytes([2, 0x60, 1, 0x7F, 0, 0x60, 0, 0]))
    out += section(2, bytes([1]) + name("host") + name("emit") + bytes([0, 0]))
    out += section(3, unsigned(count) + bytes([1]) * count)
    out += section(5, bytes([1, 1, 1, 1]))
    out += section(10, unsigned(count) + b"".join(bodies))
    return bytes(out)


if __name__ == "__main__":
    with open(sys.argv[2], "wb") as out:
        out.write(module(int(sys.argv[1])))
