#!/usr/bin/env python3
"""Takes each slot of a memory, by the program that `rt ci` has built in crates/benches.

    .ci/slots.py [PROGRAM]    exits 1 where a turn comes to anything else

Each of 65,536 turns is to take the slot with the next number, and keeps it. Each of two more is to be refused as `SlotsUsedUp`, and to have the slot again that
it gives up then. A slot is looked for from the first one on, so these are 2^31 looks, which take a processor half a minute: more than a test may take beside
others.
"""
import os
import subprocess
import sys

TOP = os.path.dirname(os.path.dirname(os.path.abspath(__file__)))
TURNS = 65_536 + 2
ASKED = f"slots 1 {TURNS} 0"


def main():
    program = sys.argv[1] if len(sys.argv) > 1 else f"{TOP}/crates/benches/out/benches"
    ran = subprocess.run([program], input=f"{ASKED}\n", stdout=subprocess.PIPE, stderr=subprocess.DEVNULL, text=True, timeout=900, check=False)
    if ran.returncode or ran.stdout != f"{ASKED}: {TURNS}\n":
        sys.exit(f"slots: it ended with {ran.returncode}, and said {ran.stdout!r}")


if __name__ == "__main__":
    main()
