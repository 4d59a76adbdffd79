#!/usr/bin/env python3
"""Writes a patch and a C file of one shape and about so many bytes each: what bench/sources.sh times.

usage: large_patch.py SHAPE BYTES PATCH C     (SHAPE is declarations, expressions or nests)
"""
import sys


def declarations(number):
    patch = (
        f"namespace N{number} {{ struct S {{ int first, second; }} let k = {number} * 3 + 1; "
        f"int f(int x, int y) {{ let z = x * 3 + y; return z - k; }} }}\n"
    )
    c = (
        f"struct S{number} {{ int first, second; }}; static const int k{number} = {number} * 3 + 1; "
        f"int f{number}(int x, int y) {{ const int z = x * 3 + y; return z - k{number}; }}\n"
    )
    return patch, c


def expressions(number):
    value = " + ".join(f"x * {n} - (y ^ {n + number})" for n in range(80))
    text = f"int f{number}(int x, int y) {{ return {value}; }}\n"
    return text, text


def nests(number):
    depth = 60
    body = "{ if (x > y) " * depth + "x = y;" + " }" * depth
    text = f"void f{number}(int x, int y) {{ {body} }}\n"
    return text, text


SHAPES = {"declarations": declarations, "expressions": expressions, "nests": nests}


def main():
    shape, size, patch_file, c_file = SHAPES[sys.argv[1]], int(sys.argv[2]), sys.argv[3], sys.argv[4]
    for index, name in ((0, patch_file), (1, c_file)):
        parts, length, number = [], 0, 0
        while True:
            part = shape(number)[index]
            if length + len(part) > size:
                break
            parts.append(part)
            length += len(part)
            number += 1
        with open(name, "w") as file:
            file.write("".join(parts).ljust(size, "\n"))


main()
