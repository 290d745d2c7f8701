#!/usr/bin/env python3
"""Times guards of sections on threads, beside a stand-in for seize.

    python3 bench/guards.py [PROGRAM] [--kinds NAME ..] [--threads N ..] [--turns N] [--rounds N] [--numbers N] [--instructions]

PROGRAM is the built program. Without it the one is taken that `rt run` has built in crates/benches
(`cd crates/benches && rt run < stdin`), in its folder out/. bench/guards.rs, the same turns on the stand-in, is compiled
by rustc into a temporary folder.

A row of the table has a kind of turn and a number of threads, each of which takes so many turns; for each program the median
of the rounds, in nanoseconds a turn of a thread; and how fast the guards are beside the stand-in, the median of the rounds'
ratios: 1 is as fast, 0.5 half as fast. In a round each program runs once, so what else the machine does meets them alike.
Where a number for a block was refused (there are so many as --numbers says), the row tells how often.

With --instructions a row has the instructions a turn on one thread instead, by valgrind: a long run less a short one.
"""

import argparse
import os
import re
import statistics
import subprocess
import sys
import tempfile

import maps

BUILT = os.path.join(maps.ROOT, "crates", "benches", "out", "benches")
SOURCE = os.path.join(maps.ROOT, "bench", "guards.rs")

KINDS = ["enter", "see", "put", "put_apart"]


def instructions(program, kind, numbers):
    """How many instructions a turn takes on one thread."""
    counts = []
    for turns in (10_000, 110_000):
        command = ["valgrind", "--tool=callgrind", "--callgrind-out-file=/dev/null", program]
        ran = subprocess.run(command, input=f"{kind} 1 {turns} {numbers}\n", capture_output=True, text=True, check=True)
        counts.append(int(re.search(r"Collected : (\d+)", ran.stderr).group(1)))
    return (counts[1] - counts[0]) / 100_000


def rounds(programs, request, given):
    """For each program its times, in nanoseconds a turn, and how many turns came to nothing."""
    took = {name: [] for name in programs}
    lost = 0
    for _ in range(given.rounds):
        for name, program in programs.items():
            count, nanoseconds = maps.run(program, request)
            took[name].append(nanoseconds / given.turns)
            lost += int(request.split()[1]) * given.turns - int(count)
    return took, lost


def times(programs, given):
    """Prints a row for each kind of turn and number of threads."""
    print("load: " + " ".join(f"{it:.1f}" for it in os.getloadavg()))
    print(f"{'kind':<10} {'threads':>7} {'ns':>8} {'stand-in':>9} {'ratio':>7}")
    for kind in given.kinds:
        for threads in given.threads:
            took, lost = rounds(programs, f"{kind} {threads} {given.turns} {given.numbers}", given)
            ratio = statistics.median(there / here for here, there in zip(took["guards"], took["stand-in"]))
            here, there = (statistics.median(took[name]) for name in programs)
            refused = f"  refused {lost}" if lost else ""
            print(f"{kind:<10} {threads:>7} {here:>8.1f} {there:>9.1f} {ratio:>7.3f}{refused}", flush=True)


def counts(programs, given):
    """Prints a row for each kind of turn."""
    print(f"{'kind':<10} {'guards':>8} {'stand-in':>9}")
    for kind in given.kinds:
        here, there = (instructions(program, kind, given.numbers) for program in programs.values())
        print(f"{kind:<10} {here:>8.1f} {there:>9.1f}", flush=True)


def main():
    parser = argparse.ArgumentParser(description=__doc__, formatter_class=argparse.RawDescriptionHelpFormatter)
    parser.add_argument("program", nargs="?", default=BUILT)
    parser.add_argument("--kinds", nargs="+", choices=KINDS, default=KINDS)
    parser.add_argument("--threads", nargs="+", type=int, default=[1, 4])
    parser.add_argument("--turns", type=int, default=1_000_000)
    parser.add_argument("--rounds", type=int, default=9)
    parser.add_argument("--numbers", type=int, default=262_144)
    parser.add_argument("--instructions", action="store_true")
    given = parser.parse_args()
    if not os.access(given.program, os.X_OK):
        sys.exit(f"there is no program {given.program}: build it by `cd crates/benches && rt run < stdin`")
    with tempfile.TemporaryDirectory() as folder:
        stand_in = maps.compiled(SOURCE, folder)
        if stand_in is None:
            sys.exit("there is no rustc")
        (counts if given.instructions else times)({"guards": given.program, "stand-in": stand_in}, given)


if __name__ == "__main__":
    main()
