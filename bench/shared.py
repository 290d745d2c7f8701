#!/usr/bin/env python3
"""Times calls on a map that threads share, beside those of other programs.

    python3 bench/shared.py [PROGRAM] [--beside NAME=PROGRAM ..] [--kinds NAME ..] [--threads N ..] [--keys N] [--rounds N] [--instructions | --memory]

PROGRAM is bench/shared.program, built. Without it that is proved and built by `rt run`, in a folder of its own beside links to this workspace's crates.

A program beside it answers a line `run KIND KEYS THREADS MILLISECONDS` by `R CALLS SECONDS`, as PROGRAM does: it makes such calls for so long on a map of so
many pairs, or stores so many new keys in an empty map again and again (insert), with the keys and the order of keys of bench/shared.program. One that holds
a guard over many calls has a name that ends in `-held`, and is compared with sections of 256 calls; each other one with a section for each call.

A row has a kind of call and a number of threads; the median of the rounds in nanoseconds a call of a thread, with a section for each call and with sections
of 256; and for each program beside how fast the map is by it, the median of the rounds' ratios: 1 is as fast, 0.5 half as fast. In a round each program runs
once.

With --instructions a row has the instructions a call on one thread instead, by valgrind: a long run less a short one. With --memory it has the most memory
that each program has had while so many keys were stored.
"""

import argparse
import os
import re
import statistics
import subprocess
import sys
import tempfile

sys.dont_write_bytecode = True
TOP = os.path.dirname(os.path.dirname(os.path.abspath(__file__)))
sys.path.insert(0, os.path.join(TOP, "compile-fail"))

from programs import laid

NAME, BELOW = "shared_bench", "papaya_map"
KINDS = ["hit", "miss", "insert", "replace", "mixed90", "mixed50", "churn", "iterate"]
HELD = {"a section each": 1, "held": 256}
MILLISECONDS = 200


def took(program, kind, threads, keys, held):
    """Nanoseconds a call of a thread."""
    ran = subprocess.run([program], input=f"run {kind} {keys} {threads} {MILLISECONDS} {held}\n", capture_output=True, text=True, check=True)
    calls, seconds = re.search(r"^R (\d+) ([\d.]+)$", ran.stdout, re.M).groups()
    return float(seconds) * 1e9 * threads / int(calls)


def times(program, beside, given):
    """Prints a row for each kind of call and number of threads."""
    print("load: " + " ".join(f"{it:.1f}" for it in os.getloadavg()))
    print(f"{'kind':<8} {'threads':>7} {'ns':>8} {'held':>8}" + "".join(f" {name:>16}" for name in beside))
    for kind in given.kinds:
        for threads in given.threads:
            each = {name: [] for name in (*HELD, *beside)}
            for _ in range(given.rounds):
                for name, held in HELD.items():
                    each[name].append(took(program, kind, threads, given.keys, held))
                for name, other in beside.items():
                    each[name].append(took(other, kind, threads, given.keys, 1))
            here = [statistics.median(each[name]) for name in HELD]
            row = f"{kind:<8} {threads:>7} {here[0]:>8.1f} {here[1]:>8.1f}"
            for name in beside:
                own = each["held" if name.endswith("-held") else "a section each"]
                row += f" {statistics.median(there / here for here, there in zip(own, each[name])):>16.3f}"
            print(row, flush=True)


def counted(program, line):
    """How many instructions the program takes to answer a line."""
    command = ["valgrind", "--tool=callgrind", "--callgrind-out-file=/dev/null", program]
    ran = subprocess.run(command, input=line, capture_output=True, text=True, check=True)
    return int(re.search(r"Collected : (\d+)", ran.stderr).group(1))


def instructions(program, given):
    """Prints a row for each kind of call. A call of a walk is a pair that it shows."""
    print(f"{'kind':<8}" + "".join(f" {name:>15}" for name in HELD))
    for kind in given.kinds:
        row = f"{kind:<8}"
        for held in HELD.values():
            few, many = (given.keys, 4 * given.keys) if kind in ("insert", "iterate") else (10_240, 61_440)
            short, long = (counted(program, f"run {kind} {calls if kind == 'insert' else given.keys} 1 1 {held} {calls}\n") for calls in (few, many))
            row += f" {(long - short) / (many - few):>15.1f}"
        print(row, flush=True)


def memory(programs, given):
    """Prints the most memory that each program has had, in MB, while so many keys were stored."""
    for name, program in programs.items():
        with subprocess.Popen([program], stdin=subprocess.PIPE, stdout=subprocess.DEVNULL, text=True) as ran:
            ran.stdin.write(f"run insert {given.keys} 1 1 1 1\n")
            ran.stdin.close()
            _, _, used = os.wait4(ran.pid, 0)
            ran.returncode = 0
        print(f"{name:<16} {used.ru_maxrss / 1024:>8.1f}", flush=True)


def built(room):
    """Proves and builds bench/shared.program there."""
    with open(os.path.join(TOP, "bench", "shared.program"), encoding="utf-8") as it:
        laid(room, NAME, BELOW, it.read())
    crate = f"{room}/crates/{NAME}"
    subprocess.run(["rt", "run"], cwd=crate, input="run insert 256 1 1\n", text=True, check=True)
    return f"{crate}/out/{NAME}"


def main():
    parser = argparse.ArgumentParser(description=__doc__, formatter_class=argparse.RawDescriptionHelpFormatter)
    parser.add_argument("program", nargs="?")
    parser.add_argument("--beside", nargs="+", default=[])
    parser.add_argument("--kinds", nargs="+", choices=KINDS, default=KINDS)
    parser.add_argument("--threads", nargs="+", type=int, choices=[1, 2, 4], default=[1, 4])
    parser.add_argument("--keys", type=int, default=10_000)
    parser.add_argument("--rounds", type=int, default=7)
    parser.add_argument("--instructions", action="store_true")
    parser.add_argument("--memory", action="store_true")
    given = parser.parse_args()
    with tempfile.TemporaryDirectory(prefix=f"{NAME}-") as room:
        program = given.program or built(room)
        beside = dict(name.split("=", 1) for name in given.beside)
        if given.instructions:
            instructions(program, given)
        elif given.memory:
            memory({"the map": program, **beside}, given)
        else:
            times(program, beside, given)


if __name__ == "__main__":
    main()
