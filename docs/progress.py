#!/usr/bin/env python3
"""Shows that a terminal on standard error is told how far work is, and that nothing else is.

  docs/progress.py [PROGRAM]     by default the proved program, crates/autocorres/out/autocorres

`trial 200` is run twice: with a terminal as standard error, which has to be told of functions on one line that is taken away at
the end, and with a pipe, which has to stay empty. Standard output has to be the same both times.
"""

import os
import subprocess
import sys

TOP = os.path.dirname(os.path.dirname(os.path.realpath(__file__)))
WORDS = ["trial", "200"]
GONE = b"\r\x1b[K"


def on_a_terminal(program):
    """What the program writes to standard output and to a terminal as standard error."""
    ours, its = os.openpty()
    run = subprocess.Popen([program, *WORDS], stdout=subprocess.PIPE, stderr=its, stdin=subprocess.DEVNULL)
    os.close(its)
    told = b""
    while True:
        try:
            piece = os.read(ours, 65536)
        except OSError:
            # the terminal's other side is closed
            break
        if not piece:
            break
        told += piece
    os.close(ours)
    written, _ = run.communicate()
    return written, told


def main():
    program = sys.argv[1] if len(sys.argv) > 1 else f"{TOP}/crates/autocorres/out/autocorres"
    written, told = on_a_terminal(program)
    plain = subprocess.run([program, *WORDS], capture_output=True, stdin=subprocess.DEVNULL)
    faults = []
    if b"199 of 200 functions translated" not in told:
        faults.append("the terminal isn't told of 199 functions")
    if not told.endswith(GONE) or b"\n" in told:
        faults.append("the terminal's line stays")
    if plain.stderr:
        faults.append("a pipe is told something")
    if written != plain.stdout or not written:
        faults.append("standard output isn't the same")
    print("\n".join(faults) or "a terminal alone is told how far work is")
    return 1 if faults else 0


if __name__ == "__main__":
    sys.exit(main())
