#!/usr/bin/env python3
"""Shows that the value of a block that is lent for seats cannot be read once one of them has taken a step, and can while a seat steps that has only shown it: such
programs do not compile, and do.

    compile-fail/late_looks.py    compiles a program of functions that read while a seat takes a step, and exits 1 if one that is right is refused, or
                                  one that is wrong is not

The program is compiled in a folder of its own beside links to this workspace's crates, and is not proved or run.
"""
import sys

sys.dont_write_bytecode = True

from programs import shown

NAME, BELOW = "late_looks", "seize_blocks seize_words"
HEAD = """//! Reads the value of a block while a seat takes a step.
#![tactic(auto)]

use seize_blocks::{Blocks, Rule, Seat};
use seize_words::At;
use std::io;
"""
SEATS = ["pass", "guard", "owner"]
# how a value is lent, and for which of these seats
LOOKS = [
    ("value", "blocks.value(&*guard, 1)", {"guard"}),
    ("value_for", "blocks.value_for(&*guard, &*owner, 1)", {"guard", "owner"}),
    ("value_by", "blocks.value_by(&*pass, &*guard, &*owner, 1)", {"guard", "owner"}),
]
STEP = "let _ = blocks.load({seat}, At::Root(0));"
REFUSALS = {"borrow-e0502"}
MAIN = """
fn main(_: HostRuntime) -> io::Result<()> {
    Ok(())
}
"""


def looking():
    """The program, and the lines where a seat steps, by the names of their functions: those first where the value is not lent for that seat."""
    text, right, wrong = HEAD, {}, {}
    takes = ", ".join(f"{seat}: &mut Seat<u64, R>" for seat in SEATS)
    for name, call, lent_for in LOOKS:
        for seat in SEATS:
            of = f"{name}_while_{seat}_steps"
            text += f"\nfn {of}<R: Rule<u64>>(blocks: &Blocks<u64, R>, {takes}) -> bool {{\n    let lent = {call};\n    "
            (wrong if seat in lent_for else right)[of] = text.count("\n") + 1
            text += f"{STEP.format(seat=seat)}\n    *lent == 2\n}}\n"
    return text + MAIN, right, wrong


def main():
    print(f"late looks: {shown(NAME, BELOW, *looking(), REFUSALS)} reads refused")


if __name__ == "__main__":
    main()
