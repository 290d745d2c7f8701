"""Counts the ways that lead down through crates.txt, and fails where they are too many for the gate: each library is summed up twice, and where no sum is
remembered the files of a crate are read anew for each way that leads there, a hundredth of a second a way."""
import functools
import os
import sys

MOST = 200_000

with open(os.path.join(os.path.dirname(os.path.abspath(__file__)), "..", "crates.txt"), encoding="utf-8") as file:
    lines = [line.split("#")[0].partition(":") for line in file]
below = {name.strip(): libraries.split() for name, colon, libraries in lines if colon}


@functools.lru_cache(maxsize=None)
def ways(crate):
    return 1 + sum(ways(library) for library in below[crate] if library in below)


found = sum(map(ways, below))
print(f"{found} ways down through crates.txt, {MOST} at most")
if found > MOST:
    for crate in sorted(below, key=ways)[-10:]:
        print(f"  {ways(crate):>8} of {crate}")
    sys.exit("a crate lists only what stands below none of its others (CONTRIBUTING.md, The gate's rules)")
