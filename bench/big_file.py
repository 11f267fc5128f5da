#!/usr/bin/env python3
"""Writes FlatZinc files with 100,000 variables and arrays of 100,000 entries.

big_file.py long PATH: 16,777,216 bytes at most, constraints whose lists are written out.
big_file.py named PATH: 100,000 numbered constraints, of which 1,000 come from an array whose elements have 1,000 listed values, and the
others name arrays of 100,000 entries."""
import sys

LIMIT = 16_777_216
N = 100_000
LISTED = 1_000


def numbered(count):
    return ",".join(f"x{i}" for i in range(1, count + 1))


def long_lines(size):
    line = "constraint int_lin_le([" + ",".join(["1"] * 200) + "],[" + numbered(200) + "],100000);\n"
    return line * ((LIMIT - size) // len(line))


def named_lines():
    values = ",".join(str(2 * v) for v in range(1_000))
    lines = "constraint int_lin_le(k,a,1000000000);\nconstraint fzn_cumulative(a,k,k,9);\nconstraint fzn_inverse(a,a);\n"
    return f"array [1..{LISTED}] of var {{{values}}}: b = [{numbered(LISTED)}];\n" + lines * ((N - LISTED) // 3)


def main(kind, path):
    head = "array [1..100000] of int: k = [" + ",".join(str(i % 1000) for i in range(N)) + "];\n"
    head += "".join(f"var 0..{i % 1000}: x{i};\n" for i in range(1, N + 1))
    head += "array [1..100000] of var int: a = [" + numbered(N) + "];\n"
    end = "solve satisfy;\n"
    lines = named_lines() if kind == "named" else long_lines(len(head) + len(end))
    with open(path, "w") as out:
        out.write(head + lines + end)


main(sys.argv[1], sys.argv[2])
