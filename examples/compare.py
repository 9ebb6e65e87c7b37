#!/usr/bin/env python3
"""Compares the examples with the tables that the tests run.

crates/server_trials/src/tests/examples.rt and cluster_examples.rt have each tape and its transcript as one table. The gate runs the
tables; this script says whether they are still the files of this folder: `examples/compare.py` writes nothing and ends with 0 where they are.
"""
import pathlib
import re
import sys

HERE = pathlib.Path(__file__).resolve().parent
TESTS = HERE.parent / "crates/server_trials/src/tests"
TABLES = [TESTS / "examples.rt", TESTS / "cluster_examples.rt"]


def octets(literal):
    """What a byte string of the tests stands for."""
    literal = re.sub(r"\\\n\s*", "", literal)
    return literal.encode().decode("unicode_escape").encode("latin-1")


def main():
    differ = False
    tables = re.findall(r'const ([A-Z_]+): &\[u8\] = b"(.*?)";', "".join(it.read_text() for it in TABLES), re.S)
    for tape in sorted(HERE.glob("*.tape")):
        if tape.stem not in [name.lower() for name, _ in tables]:
            print(f"{tape.name} is in no table")
            differ = True
    for name, literal in tables:
        lines = octets(literal).splitlines(keepends=True)
        tape = b"".join(line for line in lines if not line.startswith(b"  "))
        out = b"".join(line[2:] for line in lines if line.startswith(b"  "))
        for text, ending in ((tape, "tape"), (out, "out")):
            file = HERE / f"{name.lower()}.{ending}"
            if file.read_bytes() != text:
                print(f"{file.name} is not what the tests run")
                differ = True
    return differ


if __name__ == "__main__":
    sys.exit(main())
