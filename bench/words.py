#!/usr/bin/env python3
"""Runs the built program with its words `storm` and `check`, and prints a table.

    ./porcupine drive < examples/first.tape    # builds the program
    bench/words.py

It asserts nothing. It writes storms of 1,000 to 100,000 rounds, the greatest size, and checks three plan files: the
example, one of 4,096 users, and one of 4,096 users that a comment makes as long as a plan file may be. What is written
goes to a file. The time is that of the whole run, the start of the program among it, in the median of some rounds; the
memory is the peak resident set of the process.
"""

import os
import pathlib
import statistics
import sys
import tempfile
import time

ROOT = pathlib.Path(__file__).resolve().parent.parent
PROGRAM = ROOT / "crates" / "porcupine" / "out" / "porcupine"
SIZES = [1_000, 10_000, 100_000]
MOST_OCTETS = 1_048_576
USERS = 4_096
ROUNDS = 3


def users_file():
    """A plan file with as many users as it may have."""
    head = (
        'nodes = 16\ncopies = 3\nconfirm = 2\nbuckets = 1024\npostmaster = "u0"\n'
        'folder = "spool"\nsmtp_port = 2525\npop_port = 2110\n'
    )
    users = "".join(f'[[users]]\nname = "u{n}"\nsecret = "tanstaaf"\n' for n in range(USERS))
    return (head + users).encode()


def greatest_file():
    """The same, with a comment up to the greatest size."""
    octets = users_file() + b"#"
    return octets + b"x" * (MOST_OCTETS - len(octets))


def run(program, words, out):
    """Runs the program with these words: its seconds, peak KiB and exit status."""
    begun = time.perf_counter()
    child = os.fork()
    if child == 0:
        os.dup2(os.open(os.devnull, os.O_RDONLY), 0)
        os.dup2(os.open(out, os.O_WRONLY | os.O_CREAT | os.O_TRUNC), 1)
        os.execv(program, [str(program), *words])
    _, status, usage = os.wait4(child, 0)
    return time.perf_counter() - begun, usage.ru_maxrss, os.waitstatus_to_exitcode(status)


def print_case(program, name, words, read, out):
    """What one case costs."""
    runs = [run(program, words, out) for _ in range(ROUNDS)]
    seconds = statistics.median(seconds for seconds, _, _ in runs)
    peak = max(peak for _, peak, _ in runs)
    written = os.path.getsize(out)
    print(f"{name:<24} {read:>10,} {written:>11,} {seconds:>8.3f} {peak / 1024:>9.1f} {runs[-1][2]}")


def main():
    program = pathlib.Path(sys.argv[1]) if len(sys.argv) > 1 else PROGRAM
    print(f"{'words':<24} {'read':>10} {'written':>11} {'seconds':>8} {'peak MiB':>9} status")
    with tempfile.TemporaryDirectory() as folder:
        out = os.path.join(folder, "out")
        for size in SIZES:
            print_case(program, f"storm 1 {size}", ["storm", "1", str(size)], 0, out)
        example = (ROOT / "examples" / "plan.toml").read_bytes()
        for name, octets in [("example", example), ("4,096 users", users_file()), ("greatest", greatest_file())]:
            path = os.path.join(folder, "plan.toml")
            pathlib.Path(path).write_bytes(octets)
            print_case(program, f"check, {name}", ["check", path], len(octets), out)


if __name__ == "__main__":
    main()
