#!/usr/bin/env python3
"""Takes the time of a pipelined SMTP session and of a POP3 session of many TOPs, and prints a table.

    ./porcupine drive < examples/first.tape    # builds the program
    bench/sessions.py

It asserts nothing. Each row is the difference of two tapes, one of which has the commands that are measured and else is the
same; the time is that of the whole run, in the median of some rounds. One node, one mailbox. Pipelined: all commands of a
session come in pieces of about 32,000 octets, and beside it the same commands a line of the tape each. TOP: each of 10,000
messages is asked for once, with no line of its body, for messages of several sizes with the same header.
"""

import os
import pathlib
import statistics
import sys
import tempfile
import time

ROOT = pathlib.Path(__file__).resolve().parent.parent
PROGRAM = ROOT / "crates" / "porcupine" / "out" / "porcupine"
PLAN = b"nodes 1\ncopies 1 1\nbuckets 1\nuser alice tanstaaf\npostmaster alice\ngo\n"
PIECE = 32_000
COMMANDS = 100_000
MESSAGES = 10_000
SIZES = [0, 1_024, 4_096, 16_384]
ROUNDS = 3
TURN = [b"MAIL FROM:<bob@b.example> SIZE=3000 BODY=8BITMIME", b"RCPT TO:<alice>", b"NOOP", b"RSET"]


def commands(count):
    """So many commands that change nothing of a mailbox."""
    return [TURN[at % len(TURN)] for at in range(count)]


def pipelined(count):
    """A session that gets so many commands in pieces as large as a line of a tape takes."""
    octets = b"".join(line + b"\r\n" for line in [b"EHLO c.example"] + commands(count) + [b"QUIT"])
    pieces = [octets[at : at + PIECE] for at in range(0, len(octets), PIECE)]
    return PLAN + b"open smtp 1\n" + b"".join(b"feed 1 " + piece.hex().encode() + b"\n" for piece in pieces) + b"end\n"


def line_by_line(count):
    """The same commands, each in a line of the tape."""
    said = [b"EHLO c.example"] + commands(count) + [b"QUIT"]
    return PLAN + b"open smtp 1\n" + b"".join(b"say 1 " + line + b"\n" for line in said) + b"end\n"


def tops(size, asked):
    """Messages whose body has so many octets, and a session that asks TOP of the first `asked` of them."""
    body = b"".join(b"say 1 " + b"x" * 62 + b"\n" for _ in range(size // 64))
    message = b"say 1 MAIL FROM:<bob@b.example>\nsay 1 RCPT TO:<alice>\nsay 1 DATA\nsay 1 Subject: hi\nsay 1\n" + body + b"say 1 .\n"
    sent = b"open smtp 1\nsay 1 HELO c.example\n" + message * MESSAGES + b"say 1 QUIT\n"
    told = b"".join(b"say 2 TOP %d 0\n" % number for number in range(1, asked + 1))
    return PLAN + sent + b"open pop 1\nsay 2 USER alice\nsay 2 PASS tanstaaf\n" + told + b"say 2 QUIT\nend\n"


def run(program, path, out):
    """Drives the tape: its seconds, and the peak KiB of the process."""
    begun = time.perf_counter()
    child = os.fork()
    if child == 0:
        os.dup2(os.open(path, os.O_RDONLY), 0)
        os.dup2(os.open(out, os.O_WRONLY | os.O_CREAT | os.O_TRUNC), 1)
        os.execv(program, [str(program), "drive"])
    _, status, usage = os.wait4(child, 0)
    if os.waitstatus_to_exitcode(status) != 0:
        sys.exit(f"bench/sessions.py: the program ended with {os.waitstatus_to_exitcode(status)}")
    return time.perf_counter() - begun, usage.ru_maxrss


def measured(program, folder, tape):
    """The median of the seconds over some rounds, and the peak."""
    path, out = os.path.join(folder, "tape"), os.path.join(folder, "out")
    pathlib.Path(path).write_bytes(tape)
    runs = [run(program, path, out) for _ in range(ROUNDS)]
    return statistics.median(seconds for seconds, _ in runs), max(peak for _, peak in runs)


def print_row(program, folder, name, count, few, many):
    """What each of so many commands costs that one tape has more than the other."""
    (before, _), (after, peak) = measured(program, folder, few), measured(program, folder, many)
    print(f"{name:<28} {count:>8,} {before:>8.3f} {after:>8.3f} {(after - before) / count * 1e6:>10.2f} {peak / 1024:>9.1f}")


def main():
    program = pathlib.Path(sys.argv[1]) if len(sys.argv) > 1 else PROGRAM
    print(f"{'commands':<28} {'count':>8} {'without':>8} {'with':>8} {'us each':>10} {'peak MiB':>9}")
    with tempfile.TemporaryDirectory() as folder:
        print_row(program, folder, "SMTP, pipelined", COMMANDS, pipelined(0), pipelined(COMMANDS))
        print_row(program, folder, "SMTP, line by line", COMMANDS, line_by_line(0), line_by_line(COMMANDS))
        for size in SIZES:
            print_row(program, folder, f"TOP n 0, bodies of {size:,}", MESSAGES, tops(size, 0), tops(size, MESSAGES))


if __name__ == "__main__":
    main()
