#!/usr/bin/env python3
"""Refuses each allocation of a tape in turn, and looks at what the built program does.

    ./porcupine drive < examples/first.tape    # builds the program
    bench/allocations.py [TAPE]                # examples/lost_node.tape where none is named

The program is run once with all memory, and then once for each of its allocations, which is refused: the C library's
malloc and realloc, by a library of some lines that is built here with `cc`. Each of these runs has to end with status 7
after a prefix of the whole transcript; or with status 0 after all of it, where the program can do without. It prints how many
there were of each, and each run that does otherwise; its status is 0 where there is none.
"""

import os
import pathlib
import subprocess
import sys
import tempfile

HERE = pathlib.Path(__file__).resolve().parent
PROGRAM = HERE.parent / "crates" / "porcupine" / "out" / "porcupine"


def run(library, tape, refuse, count):
    """Runs the program with the allocation of this number refused: its status and its transcript."""
    told = {"LD_PRELOAD": str(library), "REFUSE": str(refuse), "COUNT": str(count)}
    with open(tape, "rb") as lines:
        ran = subprocess.run([PROGRAM, "drive"], stdin=lines, stdout=subprocess.PIPE, env={**os.environ, **told}, timeout=60)
    return ran.returncode, ran.stdout


def main():
    tape = sys.argv[1] if len(sys.argv) > 1 else HERE.parent / "examples" / "lost_node.tape"
    for file, what in ((PROGRAM, "no program: ./porcupine builds it"), (tape, "no tape")):
        if not os.path.isfile(file):
            print(f"{file}: {what}", file=sys.stderr)
            return 1
    with tempfile.TemporaryDirectory() as folder:
        library = pathlib.Path(folder) / "refuse_allocation.so"
        count = pathlib.Path(folder) / "count"
        subprocess.run(["cc", "-O1", "-shared", "-fPIC", "-o", library, HERE / "refuse_allocation.c"], check=True)
        status, whole = run(library, tape, 0, count)
        if status:
            print(f"with all memory the program ends with status {status}")
            return 1
        allocations = int(count.read_text())
        ended, went_on = 0, 0
        for refuse in range(1, allocations + 1):
            status, transcript = run(library, tape, refuse, count)
            if status == 7 and whole.startswith(transcript):
                ended += 1
            elif status == 0 and transcript == whole:
                went_on += 1
            else:
                is_prefix = "a prefix" if whole.startswith(transcript) else "no prefix"
                print(f"allocation {refuse}: status {status} after {is_prefix} of the transcript")
    print(f"{allocations} allocations, each refused in turn: {ended} times status 7 after a prefix, {went_on} times status 0 after all")
    return 0 if ended + went_on == allocations else 1


if __name__ == "__main__":
    sys.exit(main())
