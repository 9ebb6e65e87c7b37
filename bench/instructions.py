#!/usr/bin/env python3
"""Counts the instructions that a message costs in the built program, and prints the functions that take most of them.

    ./porcupine drive < examples/first.tape    # builds the program
    bench/instructions.py

It needs valgrind. A count of instructions is free of noise: the same program and tape give the same count, whatever else the
machine does. Each tape is one SMTP session at one node that sends messages of 16 lines of 64 octets to one mailbox; what a message
costs is the difference of two such tapes, divided by the number of messages that one has more. It asserts nothing.
"""

import pathlib
import re
import shutil
import subprocess
import sys
import tempfile

ROOT = pathlib.Path(__file__).resolve().parent.parent
PROGRAM = ROOT / "crates" / "porcupine" / "out" / "porcupine"
PLAN = b"nodes 1\ncopies 1 1\nbuckets 1\nuser alice tanstaaf\npostmaster alice\ngo\n"
COMMANDS = b"say 1 MAIL FROM:<bob@b.example>\nsay 1 RCPT TO:<alice>\nsay 1 DATA\n"
LINE = b"say 1 " + b"x" * 62 + b"\n"
FEW, MANY = 100, 600
MOST_ROWS = 12


def tape(messages):
    """A session that sends so many messages, and quits."""
    message = COMMANDS + LINE * 16 + b"say 1 .\n"
    return PLAN + b"open smtp 1\nsay 1 HELO c.example\n" + message * messages + b"say 1 QUIT\nend\n"


def counted(messages, folder):
    """The instructions of a run, and the file with those of each function."""
    out = pathlib.Path(folder) / f"callgrind.{messages}"
    done = subprocess.run(
        ["valgrind", "--tool=callgrind", f"--callgrind-out-file={out}", PROGRAM, "drive"],
        input=tape(messages), stdout=subprocess.DEVNULL, stderr=subprocess.PIPE, check=True,
    )
    return int(re.search(rb"Collected : (\d+)", done.stderr).group(1)), out


def by_function(out):
    """The instructions of each function of a run, by its name without the program's path."""
    told = subprocess.run(["callgrind_annotate", "--threshold=100", out], capture_output=True, text=True, check=True).stdout
    rows = re.findall(r"^\s*([\d,]+) \([^)]*\)\s+(\S+)(?: \[.*)?$", told, re.M)
    return {name.rsplit("/", 1)[-1].replace("???:", ""): int(count.replace(",", "")) for count, name in rows}


def main():
    if not shutil.which("valgrind"):
        sys.exit("bench/instructions.py: valgrind is not installed")
    if not PROGRAM.is_file():
        sys.exit("bench/instructions.py: the program is not built: run ./porcupine drive < examples/first.tape")
    more = MANY - FEW
    with tempfile.TemporaryDirectory() as folder:
        (few, few_file), (many, many_file) = counted(FEW, folder), counted(MANY, folder)
        print(f"{(many - few) / more:12,.0f}  a message")
        before, after = by_function(few_file), by_function(many_file)
    each = {name: (count - before.get(name, 0)) / more for name, count in after.items()}
    for name, count in sorted(each.items(), key=lambda row: -row[1])[:MOST_ROWS]:
        print(f"{count:12,.0f}  {name}")


if __name__ == "__main__":
    main()
