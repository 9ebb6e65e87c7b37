#!/usr/bin/env python3
"""Runs the built program over storms, and prints two tables.

    ./porcupine drive < examples/first.tape    # builds the program
    bench/storms.py [NUMBERS [ROUNDS]]

Storms of the numbers 1 to NUMBERS (50 where it is left out) with 200 rounds each are driven; behind the last `settle` of each a
session of each user is opened at each of the five nodes, and lists. The first table says how many of the storms ended with
status 0, in how many each user saw the same listing at all five nodes, and how many messages these showed. The second is of one
storm of ROUNDS rounds (100,000, the greatest size, where it is left out; none with 0): its status, the seconds of the whole run,
and the peak resident set of the process.
"""

import collections
import os
import subprocess
import sys
import tempfile
import time

from tapes import PROGRAM, run

NODES = range(1, 6)
USERS = range(8)
ROUNDS = 200
MOST = 100_000


def storm(number, rounds):
    """The tape of a storm, without its last line `end`."""
    wrote = subprocess.run([PROGRAM, "storm", str(number), str(rounds)], stdout=subprocess.PIPE, check=True).stdout
    assert wrote.endswith(b"\nend\n")
    return wrote[: -len(b"end\n")]


def readers(first):
    """The lines of sessions that list, numbered from this number on, and whose session each is."""
    lines, whose = [], {}
    for user in USERS:
        for node in NODES:
            session = first + len(whose)
            whose[session] = (user, node)
            said = [f"USER u{user}", f"PASS s{user}", None, "UIDL", "QUIT", None]
            lines.append(f"open pop {node}\n")
            lines += [f"say {session} {one}\n" if one else "flow\n" for one in said]
    return "".join(lines).encode(), whose


def listings(transcript, whose):
    """What UIDL showed in each session of a reader."""
    shown, listing = {}, {session: None for session in whose}
    for line in transcript.splitlines():
        number, _, text = line.partition(b" ")
        session = int(number) if number.isdigit() else 0
        if session not in whose:
            continue
        if text.startswith(b"+OK unique ids"):
            listing[session] = []
        elif text == b"." and listing[session] is not None and session not in shown:
            shown[session] = tuple(listing[session])
        elif listing[session] is not None and session not in shown:
            listing[session].append(text.split()[1])
    return shown


def driven(tape):
    """Drives a tape: the exit status, and the transcript."""
    ran = subprocess.run([PROGRAM, "drive"], input=tape, stdout=subprocess.PIPE)
    return ran.returncode, ran.stdout


def agree(shown, whose):
    """Whether each user saw one listing at all nodes, and how many messages all users saw."""
    by_user = collections.defaultdict(set)
    for session, (user, _) in whose.items():
        by_user[user].add(shown.get(session))
    alike = all(len(seen) == 1 and None not in seen for seen in by_user.values())
    return alike, sum(len(next(iter(seen)) or ()) for seen in by_user.values())


def small(numbers):
    """The storms of these numbers."""
    ended = alike = messages = 0
    begun = time.perf_counter()
    for number in range(1, numbers + 1):
        front = storm(number, ROUNDS)
        lines, whose = readers(front.count(b"\nopen ") + 1)
        status, transcript = driven(front + lines + b"end\n")
        same, seen = agree(listings(transcript, whose), whose)
        ended, alike, messages = ended + (status == 0), alike + same, messages + seen
    print("| storms | rounds | status 0 | listings agree | messages shown | s |\n|---:|---:|---:|---:|---:|---:|")
    print(f"| {numbers} | {ROUNDS} | {ended} | {alike} | {messages:,} | {time.perf_counter() - begun:.1f} |\n")


def large(rounds):
    """One storm."""
    with tempfile.TemporaryDirectory() as folder:
        path = os.path.join(folder, "tape")
        with open(path, "wb") as tape:
            tape.write(storm(1, rounds) + b"end\n")
        seconds, kib, status = run(path)
    print("| rounds | status | s | peak MiB |\n|---:|---:|---:|---:|")
    print(f"| {rounds:,} | {status} | {seconds:.1f} | {kib / 1024:.0f} |")


def main(words):
    small(int(words[0]) if words else 50)
    rounds = int(words[1]) if len(words) > 1 else MOST
    if rounds:
        large(rounds)


if __name__ == "__main__":
    main(sys.argv[1:])
