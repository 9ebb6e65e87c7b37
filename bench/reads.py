#!/usr/bin/env python3
"""Runs the built program over tapes of a mailbox that is spread over three nodes and read at a fourth, and prints a table.

    ./porcupine drive < examples/first.tape    # builds the program
    bench/reads.py

It asserts nothing, and needs valgrind. Three nodes are the members while messages of 1 KiB come, each of which is kept by one
of them; then a fourth is let in, and reads. Sessions there log in one after another; one reads each message by RETR, or marks
each by DELE and quits. Behind each line that waits for letters stands `flow`. A row has what the run takes longer than the same
tape without these lines, a message: the instructions of one login, of a RETR and of a deletion, and how many octets more the
process had at its peak as it logged in, in the median of some rounds.
"""

import os
import statistics
import tempfile

from settle import counted
from tapes import run

LINE = b"x" * 62 + b"\n"
NODES = 4
MESSAGES = [1_000, 16_000, 64_000]
ROUNDS = 3
READER = NODES
HEAD = b"nodes %d\ncopies 1 1\nbuckets 64\nuser alice tanstaaf\npostmaster alice\ngo\n" % NODES


def message(session):
    """A message of 1 KiB from a session."""
    lines = [b"MAIL FROM:<bob@b.example>\n", b"RCPT TO:<alice>\n", b"DATA\n", *[LINE] * 16, b".\n"]
    return b"".join(b"say %d " % session + line for line in lines)


def stored(messages):
    """The mailbox: the nodes but the last take messages in turn, and then the last is let in."""
    senders = NODES - 1
    yield HEAD + b"crash %d\nregroup 1\n" % READER
    for node in range(1, senders + 1):
        yield b"open smtp %d\nsay %d HELO c.example\n" % (node, node)
    for number in range(messages):
        yield message(number % senders + 1) + b"flow\n"
    yield b"start %d\nregroup 1\nsettle\n" % READER


def login(session):
    """A session logs in, and has the listing."""
    return b"open pop %d\nsay %d USER alice\nsay %d PASS tanstaaf\nflow\n" % (READER, session, session)


LOGIN = login(READER)


def reading(messages):
    """Each message is read."""
    yield LOGIN
    for number in range(1, messages + 1):
        yield b"say %d RETR %d\nflow\n" % (READER, number)


def deleting(messages):
    """Each message is deleted."""
    yield LOGIN
    for number in range(1, messages + 1):
        yield b"say %d DELE %d\n" % (READER, number)
    yield b"say %d QUIT\nflow\n" % READER


def timed(*parts):
    """Writes these parts and `end` as a tape, and runs the program on it: seconds, peak KiB and exit status."""
    with tempfile.TemporaryDirectory() as folder:
        path = os.path.join(folder, "tape")
        with open(path, "wb") as tape:
            for part in parts:
                tape.writelines(part)
            tape.write(b"end\n")
        return run(path)


def grown(messages):
    """How many octets a message the process had more at its peak where one logs in."""
    octets = [timed(stored(messages), [LOGIN])[1] - timed(stored(messages))[1] for _ in range(ROUNDS)]
    return statistics.median(octets) * 1024 / messages


def main():
    """Prints the table."""
    print(f"{'messages':>8} {'login':>7} {'RETR':>8} {'deletion':>8} {'octets':>7}")
    for messages in MESSAGES:
        tape = b"".join(stored(messages))
        alone, entered = counted(tape), counted(tape + LOGIN)
        read = counted(tape + b"".join(reading(messages))) - entered
        deleted = counted(tape + b"".join(deleting(messages))) - entered
        print(f"{messages:>8,} {(entered - alone) / messages:>7,.0f} {read / messages:>8,.0f} {deleted / messages:>8,.0f} {grown(messages):>7.0f}")


if __name__ == "__main__":
    main()
