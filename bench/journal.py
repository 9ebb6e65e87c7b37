#!/usr/bin/env python3
"""Appends records of 1 KiB to journals over real files, beside the same disk calls in C, and opens journals of 1 GiB.

    (cd crates/journal_bench && rt run)    # proves and builds the program
    bench/journal.py [FOLDER]              # the folder, on the disk to be measured; this one if none is named

It asserts nothing. All ways of appending take turns, some rounds in one run, since disks are in other moods from one
minute to the next; each figure is the median of the rounds, and beside it the greatest. The time is that of the whole
run of a program, its start included. The memory is the peak resident set of the process.
"""

import os
import pathlib
import statistics
import struct
import subprocess
import sys
import tempfile
import time

ROOT = pathlib.Path(__file__).resolve().parent.parent
PROGRAM = ROOT / "crates" / "journal_bench" / "out" / "journal_bench"
PATTERN = ROOT / "bench" / "append_pattern.c"
ROUNDS = int(os.environ.get("ROUNDS", "7"))
# How many journals at once, and how many records each gets.
CASES = [(1, 2_000), (4, 4_000)]
MODES = [(0, "C, no room ahead"), (1, "C, a longer file"), (3, "C, zeros written ahead")]
HEADER = b"PORCUPN1\0\1\0\0\0\0\0\0"
# How many octets the payloads of a journal of 1 GiB have.
PAYLOADS = [1_024, 1_048_576]


def in_pattern(pattern, folder, mode, journals, records):
    """The seconds that the calls in C take."""
    begun = time.perf_counter()
    subprocess.run([pattern, str(mode), str(journals), str(records)], cwd=folder, check=True)
    return time.perf_counter() - begun


def in_journals(folder, journals, records):
    """The seconds that as many programs take, each with a journal of its own."""
    names = [f"journal{number}" for number in range(journals)]
    begun = time.perf_counter()
    runs = [subprocess.Popen([PROGRAM, "append", name, str(records)], cwd=folder, stdout=subprocess.DEVNULL) for name in names]
    for run in runs:
        if run.wait() != 0:
            sys.exit("an append failed")
    seconds = time.perf_counter() - begun
    for name in names:
        os.remove(os.path.join(folder, name))
    return seconds


def appends(folder):
    """The table of appends a second."""
    pattern = os.path.join(folder, "append_pattern")
    subprocess.run(["cc", "-O2", "-w", "-pthread", PATTERN, "-o", pattern], check=True)
    print("journals  way                       appends a second: median, best")
    for journals, records in CASES:
        rates = {}
        for _ in range(ROUNDS):
            for mode, name in MODES:
                rates.setdefault(name, []).append(journals * records / in_pattern(pattern, folder, mode, journals, records))
            rates.setdefault("Journal over FileDisk", []).append(journals * records / in_journals(folder, journals, records))
        for name, found in rates.items():
            print(f"{journals:8}  {name:24}  {statistics.median(found):9,.0f}  {max(found):9,.0f}")


def write_journal(path, octets):
    """Writes a journal of 1 GiB with payloads of so many octets, and says how many records it has."""
    record = b"\xa5" + struct.pack(">I", octets) + b"x" * octets
    count = (1 << 30) // len(record)
    with open(path, "wb") as file:
        file.write(HEADER)
        for _ in range(count):
            file.write(record)
        file.write(b"\0")
    return count


def openings(folder):
    """The table of openings."""
    path = os.path.join(folder, "large")
    print("\npayload   records    opened in   memory")
    for octets in PAYLOADS:
        count = write_journal(path, octets)
        begun = time.perf_counter()
        process = os.posix_spawn(PROGRAM, [str(PROGRAM), "open", path], os.environ, file_actions=[(os.POSIX_SPAWN_OPEN, 1, os.devnull, os.O_WRONLY, 0)])
        _, status, usage = os.wait4(process, 0)
        seconds = time.perf_counter() - begun
        if status != 0:
            sys.exit("an opening failed")
        print(f"{octets:7}  {count:8}   {seconds:8.2f} s   {usage.ru_maxrss / 1024:.0f} MiB")
        os.remove(path)


def main():
    if not PROGRAM.exists():
        sys.exit("build the program first: (cd crates/journal_bench && rt run)")
    with tempfile.TemporaryDirectory(dir=sys.argv[1] if len(sys.argv) > 1 else ".") as folder:
        appends(folder)
        openings(folder)


main()
