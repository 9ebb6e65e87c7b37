#!/usr/bin/env python3
"""Runs the built program over tapes of many messages and of large ones, and prints three tables.

    ./porcupine drive < examples/first.tape    # builds the program
    bench/tapes.py

It asserts nothing. Each tape is one session that sends all its messages to one mailbox. For the second
table a POP3 session follows that logs in, asks for STAT, LIST and UIDL, and reads each message; for the
third one that logs in, marks each message by DELE, and quits. The time is that of the whole run, the start
of the program among it, and for reading and deleting what the run takes longer than that of the same tape
without the POP3 session, in the median of some rounds; the memory is the peak resident set of the process.
"""

import os
import pathlib
import statistics
import tempfile
import time

ROOT = pathlib.Path(__file__).resolve().parent.parent
PROGRAM = ROOT / "crates" / "porcupine" / "out" / "porcupine"
PLAN = b"nodes 1\ncopies 1 1\nbuckets 1\nuser alice tanstaaf\npostmaster alice\ngo\n"
COMMANDS = b"say 1 MAIL FROM:<bob@b.example>\nsay 1 RCPT TO:<alice>\nsay 1 DATA\n"
# One line of a text with its CRLF: 64 octets.
LINE = b"say 1 " + b"x" * 62 + b"\n"
CASES = [
    (1_000, 1_024),
    (10_000, 1_024),
    (100_000, 1_024),
    (1_000, 102_400),
    (10, 10_485_760),
]
DELETIONS = [1_000, 10_000, 30_000]
# How often reading and deleting are measured; the median counts, since they are differences of two runs.
ROUNDS = 3
LOGIN = b"open pop 1\nsay 2 USER alice\nsay 2 PASS tanstaaf\n"


def reading(messages):
    """The lines of a reader."""
    return LOGIN + b"say 2 STAT\nsay 2 LIST\nsay 2 UIDL\n" + b"".join(b"say 2 RETR %d\n" % n for n in range(1, messages + 1))


def deleting(messages):
    """The lines of an owner who deletes all."""
    return LOGIN + b"".join(b"say 2 DELE %d\n" % n for n in range(1, messages + 1)) + b"say 2 QUIT\n"


def write_tape(path, messages, octets, behind=b""):
    """Writes the tape, with these lines behind those of the sender, and says how many lines it has."""
    text_lines = octets // 64
    message = COMMANDS + LINE * text_lines + b"say 1 .\n"
    with open(path, "wb") as tape:
        tape.write(PLAN + b"open smtp 1\nsay 1 HELO c.example\n")
        for _ in range(messages):
            tape.write(message)
        tape.write(b"say 1 QUIT\n" + behind + b"end\n")
    return 6 + 2 + messages * (4 + text_lines) + 2 + behind.count(b"\n")


def run(path):
    """Runs the program on the tape: its seconds, peak KiB and exit status."""
    begun = time.perf_counter()
    child = os.fork()
    if child == 0:
        os.dup2(os.open(path, os.O_RDONLY), 0)
        os.dup2(os.open(os.devnull, os.O_WRONLY), 1)
        os.execv(PROGRAM, [str(PROGRAM), "drive"])
    _, status, usage = os.wait4(child, 0)
    return time.perf_counter() - begun, usage.ru_maxrss, os.waitstatus_to_exitcode(status)


def timed(messages, octets, behind=b""):
    """Writes a tape and runs the program on it: how many lines it has, and what the run gave."""
    with tempfile.TemporaryDirectory() as folder:
        path = os.path.join(folder, "tape")
        return write_tape(path, messages, octets, behind), *run(path)


def print_sending():
    """What it costs to take messages in."""
    print(f"{'messages':>9} {'octets':>11} {'lines':>10} {'seconds':>8} {'lines/s':>10} {'us/message':>11} {'peak MiB':>9} status")
    for messages, octets in CASES:
        lines, seconds, peak, status = timed(messages, octets)
        print(
            f"{messages:>9,} {octets:>11,} {lines:>10,} {seconds:>8.2f} {lines / seconds:>10,.0f}"
            f" {seconds / messages * 1e6:>11.1f} {peak / 1024:>9.1f} {status}"
        )


def print_behind(cases, lines_of):
    """What it costs longer where these lines stand behind those of the sender."""
    print(f"{'messages':>9} {'octets':>11} {'seconds':>8} {'us/message':>11} {'peak MiB':>9} status")
    for messages, octets in cases:
        longer = []
        for _ in range(ROUNDS):
            _, sending, _, _ = timed(messages, octets)
            _, seconds, peak, status = timed(messages, octets, lines_of(messages))
            longer.append(seconds - sending)
        seconds = statistics.median(longer)
        print(f"{messages:>9,} {octets:>11,} {seconds:>8.2f} {seconds / messages * 1e6:>11.1f} {peak / 1024:>9.1f} {status}")


def main():
    print("taking messages in")
    print_sending()
    print("reading them back")
    print_behind(CASES, reading)
    print("deleting them")
    print_behind([(messages, 1_024) for messages in DELETIONS], deleting)


if __name__ == "__main__":
    main()
