#!/usr/bin/env python3
"""Measures what a run costs by crate, in minutes of a processor, and writes the table.

  docs/costs.py rt ci            runs the command at the top of the repository, and writes docs/costs.txt and the table for
                                 docs/PERFORMANCE.md, which it prints at the end

It looks every second at the checks that run below the command: each names its crate, and says whether it is of the crate, of its
tests or of a must-fail edit.
"""

import collections
import os
import subprocess
import sys
import time

TOP = os.path.dirname(os.path.dirname(os.path.realpath(__file__)))
TICKS = os.sysconf("SC_CLK_TCK")
KINDS = ("proof", "tests", "edits")


def processes():
    """Of each process its parent, its words and the seconds of a processor that it has taken."""
    found = {}
    for pid in filter(str.isdigit, os.listdir("/proc")):
        try:
            with open(f"/proc/{pid}/stat") as it:
                fields = it.read().rpartition(")")[2].split()
            with open(f"/proc/{pid}/cmdline") as it:
                words = it.read().split("\0")
        except OSError:
            continue
        found[int(pid)] = int(fields[1]), words, (int(fields[11]) + int(fields[12])) / TICKS
    return found


def is_below(pid, top, found):
    while pid in found and pid != top:
        pid = found[pid][0]
    return pid == top


def kind_of(words):
    """The crate that a check is of, and what of it; None for any other process."""
    if not os.path.basename(words[0]) == "rattle" or "--crate-name" not in words[:-1]:
        return None
    crate = words[words.index("--crate-name") + 1]
    if "--test" in words:
        return crate, "tests"
    # A library is built where it is proved. What is checked alone is an edit's crate, or a program.
    has_edits = os.path.isdir(f"{TOP}/crates/{crate}/must-fail")
    return crate, "edits" if "check" in words[1:2] and has_edits else "proof"


def measure(command):
    """Runs the command; its status, and the seconds of each check by its process."""
    seconds = {}
    run = subprocess.Popen(command, cwd=TOP)
    while run.poll() is None:
        found = processes()
        for pid, (_, words, taken) in found.items():
            of = kind_of(words)
            if of and is_below(pid, run.pid, found):
                seconds[pid, of] = taken
        time.sleep(1)
    return run.returncode, seconds


def main(command):
    if not command:
        sys.exit(__doc__)
    status, seconds = measure(command)
    minutes = collections.defaultdict(lambda: dict.fromkeys(KINDS, 0.0))
    for (_, (crate, kind)), taken in seconds.items():
        minutes[crate][kind] += taken / 60
    with open(f"{TOP}/docs/costs.txt", "w", encoding="utf-8") as it:
        print("# Processor minutes of each crate's proof (docs/costs.py writes this file). ./autocorres --prove tells by them how far it is.", file=it)
        for crate, row in sorted(minutes.items()):
            print(f"{crate} {row['proof']:.1f}", file=it)
    rows = [*sorted(minutes.items()), ("all", {kind: sum(row[kind] for row in minutes.values()) for kind in KINDS})]
    print("| Crate | Proof | Its tests | Edits |", "|---|---|---|---|", sep="\n")
    for crate, row in rows:
        print(f"| `{crate}` |", " | ".join(f"{row[kind]:.1f}" if row[kind] else "" for kind in KINDS), "|")
    return status


if __name__ == "__main__":
    sys.exit(main(sys.argv[1:]))
