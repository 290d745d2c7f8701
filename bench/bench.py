#!/usr/bin/env python3
"""Times reclaimed_map on scripts of 10, 100 and 900 thousand lines.

    python3 bench/bench.py [PROGRAM] [--lines N ..] [--runs N] [--kinds NAME ..]

PROGRAM is the built program. Without it the one is taken that `rt run` has built in crates/reclaimed_map
(`cd crates/reclaimed_map && rt run < stdin`), in its folder out/.

For each kind of script and each number of lines the script is written to a temporary file, the program is run
on it, and its output thrown away. A row of the table has the median of the runs in seconds, that time per line
in microseconds, and how the latter compares with that of the kind's row before.
"""

import argparse
import os
import statistics
import subprocess
import sys
import tempfile
import time

ROOT = os.path.dirname(os.path.dirname(os.path.abspath(__file__)))
BUILT = os.path.join(ROOT, "crates", "reclaimed_map", "out", "reclaimed_map")

BEGIN = ["register a", "map m inc 64 0"]

# a registration has so many guards at most
MOST_GUARDS = 65_535


def stored(lines):
    """Distinct keys are stored, all under one guard."""
    yield from BEGIN
    yield "enter g a"
    for key in range(lines - 3):
        yield f"call g m insert {key} v{key}"


def replaced(lines):
    """The pair of one key is replaced again and again, under one guard that ends last."""
    yield from BEGIN
    yield "enter g a"
    for turn in range(lines - 4):
        yield f"call g m insert 7 v{turn}"
    yield "drop g"


def in_turn(lines):
    """A pair is stored and removed in turn, each time under a guard of its own."""
    yield from BEGIN
    left = lines - 2
    turn = 0
    while left >= 4:
        yield f"enter g{turn} a"
        yield f"call g{turn} m insert {turn % 1000} v{turn}"
        yield f"call g{turn} m remove {turn % 1000}"
        yield f"drop g{turn}"
        turn += 1
        left -= 4


def looked_up(lines):
    """A tenth of the lines store distinct keys, the others look them up."""
    yield from BEGIN
    yield "enter g a"
    keys = max(1, lines // 10)
    for key in range(keys):
        yield f"call g m insert {key} v{key}"
    for turn in range(lines - 3 - keys):
        yield f"call g m get {turn * 7919 % keys}"


def crowded(lines):
    """A third of the lines enter guards, which are all there at once. Each looks a key up, and they end in the order of their coming."""
    guards = (lines - 1) // 3
    registrations = guards // MOST_GUARDS + 1
    guards -= registrations
    yield "map m inc 64 0"
    for turn in range(registrations):
        yield f"register a{turn}"
    for guard in range(guards):
        yield f"enter g{guard} a{guard // MOST_GUARDS}"
    for guard in range(guards):
        yield f"call g{guard} m get {guard}"
    for guard in range(guards):
        yield f"drop g{guard}"


def stepped(lines):
    """Eight callers store distinct keys in two maps, each under a guard of its own: a call is begun, takes six single steps in turn with the others' calls, and goes on."""
    callers = range(8)
    yield "register a"
    yield "map m0 inc 64 0"
    yield "map m1 block 0"
    for caller in callers:
        yield f"enter g{caller} a"
    key = 0
    left = lines - 11
    while left >= 64:
        for caller in callers:
            yield f"begin c{caller} g{caller} m{caller % 2} insert {key + caller} v{key}"
        for _ in range(6):
            for caller in callers:
                yield f"step c{caller}"
        for caller in callers:
            yield f"go c{caller}"
        key += 8
        left -= 64


def begun(lines):
    """Half of the lines begin calls that store distinct keys, all of which are under way at once, under one guard; then each is told to go on, in the order of their coming."""
    yield from BEGIN
    yield "enter g a"
    calls = (lines - 3) // 2
    for call in range(calls):
        yield f"begin c{call} g m insert {call} v{call}"
    for call in range(calls):
        yield f"go c{call}"


KINDS = {
    "stored": stored,
    "replaced": replaced,
    "in turn": in_turn,
    "looked up": looked_up,
    "crowded": crowded,
    "stepped": stepped,
    "begun": begun,
}


def script(kind, lines):
    """The bytes of a script."""
    return ("\n".join(KINDS[kind](lines)) + "\n").encode()


def one_run(program, path, errors):
    """How many seconds one run takes."""
    with open(path, "rb") as source, open(os.devnull, "wb") as sink:
        begin = time.perf_counter()
        run = subprocess.run([program], stdin=source, stdout=sink, stderr=errors, check=False)
        seconds = time.perf_counter() - begin
    if run.returncode != 0:
        sys.exit(f"{program} ended with status {run.returncode}")
    return seconds


def row(program, kind, lines, runs):
    """The median of so many runs."""
    with tempfile.NamedTemporaryFile() as file:
        file.write(script(kind, lines))
        file.flush()
        return statistics.median(one_run(program, file.name, sys.stderr) for _ in range(runs))


def table(program, kinds, counts, runs):
    """Prints a row for each kind and number of lines."""
    print(f"{'script':<10} {'lines':>8} {'seconds':>9} {'us a line':>10} {'growth':>7}")
    for kind in kinds:
        before = None
        for lines in counts:
            seconds = row(program, kind, lines, runs)
            each = seconds / lines * 1e6
            growth = "" if before is None else f"{each / before:.2f}"
            print(f"{kind:<10} {lines:>8} {seconds:>9.3f} {each:>10.2f} {growth:>7}", flush=True)
            before = each


def main():
    parser = argparse.ArgumentParser(description=__doc__, formatter_class=argparse.RawDescriptionHelpFormatter)
    parser.add_argument("program", nargs="?", default=BUILT)
    parser.add_argument("--lines", nargs="+", type=int, default=[10_000, 100_000, 900_000])
    parser.add_argument("--runs", type=int, default=5)
    parser.add_argument("--kinds", nargs="+", choices=list(KINDS), default=list(KINDS))
    given = parser.parse_args()
    if not os.access(given.program, os.X_OK):
        sys.exit(f"there is no program {given.program}: build it by `cd crates/reclaimed_map && rt run < stdin`")
    table(given.program, given.kinds, given.lines, given.runs)


if __name__ == "__main__":
    main()
