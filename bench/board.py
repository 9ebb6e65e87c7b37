#!/usr/bin/env python3
"""Turns a second of 1, 4 and 16 threads at a world behind a board, beside the same world behind a Mutex.

    (cd crates/board_bench && rt run)    # proves and builds the program
    bench/board.py

It asserts nothing. Both locks take turns, some rounds in one run, since a machine is in other moods from one minute to the
next; each figure is the median of the rounds, and beside it the best. `look` is a turn that reads the life of a node, so
it shows what the lock costs; `send` is two turns for a message that is stored: a world does them, one after another. The
time is that of the whole run of a program, less that of a run without rounds.
"""

import os
import pathlib
import statistics
import subprocess
import sys
import time

ROOT = pathlib.Path(__file__).resolve().parent.parent
PROGRAM = ROOT / "crates" / "board_bench" / "out" / "board_bench"
RUNS = int(os.environ.get("RUNS", "7"))
LOCKS = ["board", "mutex"]
THREADS = [1, 4, 16]
# How many rounds all threads of a run make together, and how many turns a round is.
WORKS = {"look": (int(os.environ.get("LOOKS", "400000")), 1), "send": (int(os.environ.get("SENDS", "40000")), 2)}


def seconds_of(lock, work, threads, rounds):
    """The seconds that a run takes."""
    begun = time.perf_counter()
    run = subprocess.run([PROGRAM, lock, work, str(threads), str(rounds)], capture_output=True, text=True)
    seconds = time.perf_counter() - begun
    wanted = f"{threads * rounds * WORKS[work][1]} turns\n"
    if run.returncode != 0 or run.stdout != wanted:
        sys.exit(f"{lock} {work} {threads}: {run.stdout!r} instead of {wanted!r}")
    return seconds


def main():
    if not PROGRAM.exists():
        sys.exit("build the program first: (cd crates/board_bench && rt run)")
    print(f"load before the run: {os.getloadavg()[0]:.1f}")
    print("work  threads  lock   turns a second: median, best")
    for work, (rounds, turns) in WORKS.items():
        for threads in THREADS:
            rates = {lock: [] for lock in LOCKS}
            for _ in range(RUNS):
                for lock in LOCKS:
                    start = seconds_of(lock, work, threads, 0)
                    spent = seconds_of(lock, work, threads, rounds // threads) - start
                    rates[lock].append(rounds // threads * threads * turns / spent)
            for lock, found in rates.items():
                print(f"{work}  {threads:7}  {lock}  {statistics.median(found):9,.0f}  {max(found):9,.0f}", flush=True)
    print(f"load after the run: {os.getloadavg()[0]:.1f}")


main()
