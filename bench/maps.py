#!/usr/bin/env python3
"""Times calls on the map for one owner, beside the standard library's hash map and that of Rust.

    python3 bench/maps.py [PROGRAM] [--keys N ..] [--kinds NAME ..] [--turns N] [--runs N]

PROGRAM is the built program. Without it the one is taken that `rt run` has built in crates/benches
(`cd crates/benches && rt run < stdin`), in its folder out/. Where there is a rustc, bench/maps.rs is compiled into
a temporary folder, too: the same turns on Rust's map, with the same keys and the same hash function.

A row of the table has a kind of call and a number of keys; for each map the median of the runs, in nanoseconds a turn;
and for each other map how fast the map for one owner is beside it: 1 is as fast, 0.5 half as fast. The maps are run in
turn, so that what else the machine does meets them alike. Each must find the same. The last row has the most memory
that a program had in use that stored the greatest number of pairs, and how many times that of the other maps the map for
one owner took.
"""

import argparse
import os
import shutil
import statistics
import subprocess
import sys
import tempfile

ROOT = os.path.dirname(os.path.dirname(os.path.abspath(__file__)))
BUILT = os.path.join(ROOT, "crates", "benches", "out", "benches")
SOURCE = os.path.join(ROOT, "bench", "maps.rs")

KINDS = ["hit", "miss", "insert", "replace", "in_turn", "window", "iterate"]


def compiled(source, folder):
    """A program in Rust, or None where there is no compiler."""
    rustc = shutil.which("rustc")
    if rustc is None:
        return None
    program = os.path.join(folder, "in_rust")
    subprocess.run([rustc, "--edition", "2021", "-C", "opt-level=3", "-C", "target-cpu=x86-64-v2", source, "-o", program], check=True)
    return program


def run(program, request):
    """What a program answers to a request: what it found, and nanoseconds."""
    ran = subprocess.run([program], input=request + "\n", capture_output=True, text=True, check=False)
    if ran.returncode != 0:
        sys.exit(f"{program} ended with status {ran.returncode} at: {request}")
    return ran.stdout.split()[-1], int(ran.stderr)


def peak(program, request):
    """The most memory that a program has in use that answers a request, in megabytes."""
    with tempfile.TemporaryFile() as source:
        source.write((request + "\n").encode())
        source.seek(0)
        child = subprocess.Popen([program], stdin=source, stdout=subprocess.DEVNULL, stderr=subprocess.DEVNULL)
        _, status, usage = os.wait4(child.pid, 0)
        child.returncode = os.waitstatus_to_exitcode(status)
    if child.returncode != 0:
        sys.exit(f"{program} ended with status {child.returncode} at: {request}")
    return usage.ru_maxrss / 1024


def medians(maps, kind, keys, turns, runs):
    """For each map the median of its runs, in nanoseconds a turn."""
    turns = keys if kind == "insert" else max(keys, turns)
    took = {name: [] for name in maps}
    for _ in range(runs):
        found = set()
        for name, program in maps.items():
            what, nanoseconds = run(program, f"{name} {kind} {keys} {turns}")
            found.add(what)
            took[name].append(nanoseconds / turns)
        if len(found) != 1:
            sys.exit(f"the maps do not find the same: {kind} at {keys} keys")
    return {name: statistics.median(times) for name, times in took.items()}


def table(maps, given):
    """Prints a row for each kind and number of keys, and one for the memory of each number."""
    others = [name for name in maps if name != "owned"]
    print(f"{'kind':<8} {'keys':>9}" + "".join(f"{name:>10}" for name in maps) + "".join(f"{'to ' + name:>10}" for name in others))
    for kind in given.kinds:
        for keys in given.keys:
            times = medians(maps, kind, keys, given.turns, given.runs)
            shown = "".join(f"{times[name]:>10.1f}" for name in maps)
            speeds = "".join(f"{times[name] / times['owned']:>10.3f}" for name in others)
            print(f"{kind:<8} {keys:>9}{shown}{speeds}", flush=True)
    keys = max(given.keys)
    peaks = {name: peak(program, f"{name} insert {keys} {keys}") for name, program in maps.items()}
    shown = "".join(f"{peaks[name]:>10.1f}" for name in maps)
    times_as_much = "".join(f"{peaks['owned'] / peaks[name]:>10.2f}" for name in others)
    print(f"{'MB':<8} {keys:>9}{shown}{times_as_much}", flush=True)


def main():
    parser = argparse.ArgumentParser(description=__doc__, formatter_class=argparse.RawDescriptionHelpFormatter)
    parser.add_argument("program", nargs="?", default=BUILT)
    parser.add_argument("--keys", nargs="+", type=int, default=[10_000, 100_000, 1_000_000])
    parser.add_argument("--kinds", nargs="+", choices=KINDS, default=KINDS)
    parser.add_argument("--turns", type=int, default=1_000_000)
    parser.add_argument("--runs", type=int, default=5)
    given = parser.parse_args()
    if not os.access(given.program, os.X_OK):
        sys.exit(f"there is no program {given.program}: build it by `cd crates/benches && rt run < stdin`")
    print("load: " + " ".join(f"{it:.1f}" for it in os.getloadavg()))
    with tempfile.TemporaryDirectory() as folder:
        maps = {"owned": given.program, "std": given.program}
        rust = compiled(SOURCE, folder)
        if rust is not None:
            maps["rust"] = rust
        table(maps, given)


if __name__ == "__main__":
    main()
