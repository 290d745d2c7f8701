#!/usr/bin/env python3
"""Shows that what a pass or a pin has found in a map can be read while it looks further keys up, and cannot once its guard has taken a step, or has ended: such programs
compile, and do not.

    compile-fail/late_pins.py    compiles a program of functions that read while a pass, a pin or its guard takes a step, and exits 1 if one that is right is
                                 refused, or one that is wrong is not

The program is compiled in a folder of its own beside links to this workspace's crates, and is not proved or run.
"""
import sys

sys.dont_write_bytecode = True

from programs import shown

NAME, BELOW = "late_pins", "papaya_map"
HEAD = """//! Reads what was found under a guard while somebody takes a step.
#![tactic(auto)]

use papaya_map::{Pass, Session, SharedMap};
use std::hash::{BuildHasherDefault, DefaultHasher};
use std::io;
use std::sync::Wait;

type Hashing = BuildHasherDefault<DefaultHasher>;

type Map<'m> = SharedMap<'m, u64, u64, Hashing>;

type Guard<'m> = Session<'m, u64, u64, Hashing>;

type Own = Pass<u64, u64, Hashing>;
"""
# who takes which step meanwhile, and whether what was found may be read after it
STEPS = [
    ("pass_looks", "let _ = map.get(rt, &2, &guard, pass);", True),
    ("other_stores", "let _ = map.insert(rt, 1, 3, other);", True),
    ("pin_looks", "let _ = guard.pin().get(rt, &2);", True),
    ("guard_refreshes", "guard.refresh();", False),
    ("guard_stores", "let _ = map.insert(rt, 1, 3, &mut guard);", False),
    ("guard_ends", "drop(guard);", False),
]
REFUSALS = {"borrow-e0502", "borrow-e0505"}
MAIN = """
fn main(_: HostRuntime) -> io::Result<()> {
    Ok(())
}
"""


def reading():
    """The program, and the lines of the steps, by the names of their functions: those first after which what was found may be read."""
    text, right, wrong = HEAD, {}, {}
    for by, finds in (("pass", "map.get(rt, &1, &guard, pass).unwrap_or(None)"), ("pin", "guard.pin().get(rt, &1)")):
        for name, step, may in STEPS:
            of = f"found_by_{by}_while_{name}"
            text += f"\nfn {of}<R: Wait>(rt: &R, map: &Map<'_>, guard: Guard<'_>, other: &mut Guard<'_>, pass: &mut Own) -> bool {{\n    let mut guard = guard;\n    let found = {finds};\n    "
            (right if may else wrong)[of] = text.count("\n") + 1
            text += f"{step}\n    found == Some(&1)\n}}\n"
    return text + MAIN, right, wrong


def main():
    print(f"late pins: {shown(NAME, BELOW, *reading(), REFUSALS)} reads refused")


if __name__ == "__main__":
    main()
