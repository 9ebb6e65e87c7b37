#!/usr/bin/env python3
"""Runs the built program over tapes of clusters that settle, and prints a table.

    ./porcupine drive < examples/first.tape    # builds the program
    bench/settle.py

It asserts nothing, and needs valgrind. In the first rows five nodes owe each other states: each node took messages of 1 KiB
whose copies are meant for all, and all letters of them were dropped. In the others each of some users has mail at each node, and
each node but their manager has all their rows to report: it started again, and an epoch was formed. A row has what the last line
of the tape, `settle`, takes longer than the same tape without it: seconds, in the median of some rounds, letters, and the
instructions for each state that is owed or row that is due. The number of the last letter is found by which letters there are of
groups that are opened behind the tape.
"""

import os
import pathlib
import re
import shutil
import statistics
import subprocess
import sys
import tempfile

from cluster import MESSAGE
from tapes import PROGRAM, run

UPDATES = [1_000, 10_000]
USERS = [1_000, 4_096]
NODES = 5
# How many users one message is for.
MOST_RECIPIENTS = 64
ROUNDS = 3


def head(nodes, users):
    """The plan lines of a cluster in which each message is meant for all nodes, and node 1 manages all users."""
    names = "".join(f"user u{n} tanstaaf\n" for n in range(users))
    return f"nodes {nodes}\ncopies {nodes} 1\nbuckets 1\n{names}postmaster u0\ngo\n".encode()


def opening(session, node):
    return b"open smtp %d\nsay %d HELO c.example\n" % (node, session)


def owing(updates):
    """Each node took as many messages as the others, and no letter of them came anywhere."""
    messages = updates // (NODES - 1) // NODES
    lines = [head(NODES, 1)]
    for node in range(1, NODES + 1):
        message = MESSAGE.replace(b"<alice>", b"<u0>").replace(b"say 1 ", b"say %d " % node)
        lines += [opening(node, node), message * messages]
    lines += [b"drop %d\n" % letter for letter in range(1, messages * NODES * (NODES - 1) + 1)]
    return b"".join(lines)


def due(nodes, users):
    """Each node has mail of all users, nothing is owed, and node 1 is to learn of all rows."""
    lines = [head(nodes, users), opening(1, 1)]
    for first in range(0, users, MOST_RECIPIENTS):
        lines.append(b"say 1 MAIL FROM:<>\n")
        lines += [b"say 1 RCPT TO:<u%d>\n" % n for n in range(first, min(first + MOST_RECIPIENTS, users))]
        lines.append(b"say 1 DATA\nsay 1 .\nflow\n")
    lines.append(b"settle\ncrash 1\nstart 1\nregroup 2\n")
    return b"".join(lines)


def driven(lines):
    """Runs the program on these lines: its seconds and its exit status."""
    with tempfile.TemporaryDirectory() as folder:
        path = os.path.join(folder, "tape")
        pathlib.Path(path).write_bytes(lines + b"end\n")
        seconds, _, status = run(path)
        return seconds, status


def last_letter(lines, nodes):
    """The number of the last letter that these lines send, if the next are those of groups of node 1."""

    def is_within(low, width):
        groups = b"group 1\n" * (width // (nodes - 1))
        return driven(lines + groups + b"drop %d\n" % (low + width))[1] == 0

    low, width = 0, (nodes - 1) << 12
    while not is_within(low, width):
        low += width
    while width > nodes - 1:
        width //= 2
        if not is_within(low, width):
            low += width
    while driven(lines + b"group 1\ndrop %d\n" % (low + 1))[1] != 0:
        low += 1
    return low


def counted(lines):
    """The instructions of a run."""
    with tempfile.TemporaryDirectory() as folder:
        done = subprocess.run(
            ["valgrind", "--tool=callgrind", f"--callgrind-out-file={folder}/out", PROGRAM, "drive"],
            input=lines + b"end\n", stdout=subprocess.DEVNULL, stderr=subprocess.PIPE, check=True,
        )
        return int(re.search(rb"Collected : (\d+)", done.stderr).group(1))


def print_row(what, nodes, count, lines):
    """What the settle behind these lines takes, where so many states or rows are due."""
    longer = []
    for _ in range(ROUNDS):
        without, _ = driven(lines)
        seconds, status = driven(lines + b"settle\n")
        longer.append(seconds - without)
    seconds = statistics.median(longer)
    letters = last_letter(lines + b"settle\n", nodes) - last_letter(lines, nodes)
    instructions = counted(lines + b"settle\n") - counted(lines)
    print(
        f"{what:>7} {nodes:>5} {count:>7,} {seconds:>8.2f} {seconds / count * 1e6:>8.1f} {letters:>8,}"
        f" {instructions / count:>12,.0f} {status}"
    )


def main():
    if not shutil.which("valgrind"):
        sys.exit("bench/settle.py: valgrind is not installed")
    if not PROGRAM.is_file():
        sys.exit("bench/settle.py: the program is not built: run ./porcupine drive < examples/first.tape")
    print(f"{'due':>7} {'nodes':>5} {'count':>7} {'seconds':>8} {'us each':>8} {'letters':>8} {'instructions':>12} status")
    for updates in UPDATES:
        print_row("updates", NODES, updates, owing(updates))
    for nodes in [2, NODES]:
        for users in USERS:
            print_row("rows", nodes, (nodes - 1) * users, due(nodes, users))


if __name__ == "__main__":
    main()
