#!/usr/bin/env python3
"""Runs the built program over tapes of clusters of several nodes, of nodes that start again, and of regroups, and prints four
tables.

    ./porcupine drive < examples/first.tape    # builds the program
    bench/cluster.py

It asserts nothing. In the first table one session sends messages of 1 KiB to one mailbox, and each is followed by
`flow`: of a cluster of n nodes, with min(n, 3) copies of which 2 are confirmed, or all where n is below 2. In the second
one node pushes what it owes after all letters were dropped, and the letters are posted by `flow`. In the third one node
takes messages, stops, and starts again: what the two lines `crash 1` and `start 1` take longer. In the fourth node 1
regroups a cluster again and again: how long one line `regroup 1` takes, and how many letters it sends, by the number of
the letter that the next group sends first. The time is that of the whole run; the memory is the peak resident set of the
process.
"""

import os
import tempfile

from tapes import run

LINE = b"say 1 " + b"x" * 62 + b"\n"
MESSAGE = b"say 1 MAIL FROM:<bob@b.example>\nsay 1 RCPT TO:<alice>\nsay 1 DATA\n" + LINE * 16 + b"say 1 .\n"
NODES = [1, 3, 5, 16]
COUNTS = [1_000, 100_000]
STARTS = [10_000, 100_000, 1_000_000]
BUCKETS = [1, 1_024]
REGROUPS = 2_000


def plan(nodes, copies, confirm, buckets=1):
    """The plan lines of a cluster with one user, and a session that takes mail."""
    head = f"nodes {nodes}\ncopies {copies} {confirm}\nbuckets {buckets}\nuser alice tanstaaf\npostmaster alice\ngo\n"
    return head.encode() + b"open smtp 1\nsay 1 HELO c.example\n"


def timed(pieces):
    """Writes these pieces and `end` as a tape and runs the program on it: how many lines it has, and what the run gave."""
    with tempfile.TemporaryDirectory() as folder:
        path = os.path.join(folder, "tape")
        lines = 1
        with open(path, "wb") as tape:
            for piece in pieces:
                lines += piece.count(b"\n")
                tape.write(piece)
            tape.write(b"end\n")
        return lines, *run(path)


def sending(nodes, messages):
    """Messages to a cluster, each followed by `flow`."""
    copies = min(nodes, 3)
    yield plan(nodes, copies, min(copies, 2))
    for _ in range(messages):
        yield MESSAGE + b"flow\n"


def print_sending():
    """What it costs a cluster to take messages in."""
    print(f"{'nodes':>5} {'messages':>9} {'seconds':>8} {'lines/s':>10} {'us/message':>11} {'peak MiB':>9} {'KiB/message':>11} status")
    for nodes in NODES:
        for messages in COUNTS:
            lines, seconds, peak, status = timed(sending(nodes, messages))
            print(
                f"{nodes:>5} {messages:>9,} {seconds:>8.2f} {lines / seconds:>10,.0f} {seconds / messages * 1e6:>11.1f}"
                f" {peak / 1024:>9.1f} {peak / messages:>11.2f} {status}"
            )


def flowing(letters):
    """As many Files in flight as letters are wanted, and then `flow`."""
    yield plan(2, 2, 1)
    for _ in range(letters):
        yield b"say 1 MAIL FROM:<>\nsay 1 RCPT TO:<alice>\nsay 1 DATA\nsay 1 .\n"
    yield b"flow\n"


def print_flow():
    """What it costs to post many letters at once."""
    letters = 60_000
    _, with_flow, peak, status = timed(flowing(letters))
    _, without, _, _ = timed(list(flowing(letters))[:-1])
    print(f"{letters:,} letters: {with_flow - without:.2f} s, {(with_flow - without) / letters * 1e6:.1f} us each, peak {peak / 1024:.1f} MiB, status {status}")


def filled(messages, behind):
    """One node with so many messages of no text, and these lines after them."""
    yield plan(1, 1, 1)
    for _ in range(messages):
        yield b"say 1 MAIL FROM:<>\nsay 1 RCPT TO:<alice>\nsay 1 DATA\nsay 1 .\n"
    yield behind


def print_starts():
    """What it costs to start a node over a journal."""
    print(f"{'messages':>9} {'seconds':>8} {'us/message':>11} {'octets/message':>14} status")
    for messages in STARTS:
        _, without, low, _ = timed(filled(messages, b"crash 1\n"))
        _, seconds, high, status = timed(filled(messages, b"crash 1\nstart 1\n"))
        more = seconds - without
        print(f"{messages:>9,} {more:>8.2f} {more / messages * 1e6:>11.1f} {(high - low) * 1024 / messages:>14.0f} {status}")


def grouping(nodes, buckets, count, behind):
    """A cluster that regroups so often, and these lines after it."""
    yield plan(nodes, min(nodes, 3), min(nodes, 2), buckets)
    yield b"regroup 1\n" * count
    yield behind


def letters_of_one(nodes, buckets):
    """How many letters a regroup sends; none are sent where there is one node."""
    for letter in range(1, 7 * nodes):
        _, _, _, status = timed(grouping(nodes, buckets, 1, b"group 1\ndrop %d\n" % letter))
        if status == 0:
            return letter - 1
    return 0


def print_regroups():
    """What it costs to form an epoch."""
    print(f"{'nodes':>5} {'buckets':>7} {'us/regroup':>10} {'letters':>7} status")
    for nodes in NODES:
        for buckets in BUCKETS:
            _, without, _, _ = timed(grouping(nodes, buckets, 0, b""))
            _, seconds, _, status = timed(grouping(nodes, buckets, REGROUPS, b""))
            letters = letters_of_one(nodes, buckets)
            print(f"{nodes:>5} {buckets:>7,} {(seconds - without) / REGROUPS * 1e6:>10.1f} {letters:>7} {status}")


def main():
    print("a cluster takes messages in")
    print_sending()
    print("letters in flight are posted")
    print_flow()
    print("a node starts again")
    print_starts()
    print("a cluster regroups")
    print_regroups()


if __name__ == "__main__":
    main()
