#!/usr/bin/env python3
"""Shows that the pair that a pass has found under a session can be read while the pass looks further keys up, and cannot once the session has taken a step: such
programs compile, and do not.

    compile-fail/late_passes.py    compiles a program of functions that read while a pass or its session takes a step, and exits 1 if one that is right is
                                   refused, or one that is wrong is not

The program is compiled in a folder of its own beside links to this workspace's crates, and is not proved or run.
"""
import sys

sys.dont_write_bytecode = True

from programs import shown

NAME, BELOW = "late_passes", "threads_calls"
HEAD = """//! Reads what a pass has found while it or its session takes a step.
#![tactic(auto)]

use threads_calls::{MapPassSeat, SessionBase};
use std::hash::{BuildHasherDefault, DefaultHasher};
use std::io;
use std::sync::Wait;

type Hashing = BuildHasherDefault<DefaultHasher>;

type Its<'m> = SessionBase<'m, u64, u64, Hashing>;

type Own = MapPassSeat<u64, u64, Hashing>;
"""
# who takes which step meanwhile, and whether what was found may be read after it
STEPS = [
    ("pass_looks", "let _ = session.find_by(rt, &2, pass);", True),
    ("other_pass_looks", "let _ = session.find_by(rt, &2, other);", True),
    ("session_leaves", "session.leave();", False),
    ("session_looks", "let _ = session.find(rt, &2);", False),
    ("session_stores", "let _ = session.insert(rt, 1, 3);", False),
    ("session_removes", "let _ = session.remove(rt, &1);", False),
]
REFUSALS = {"borrow-e0502"}
MAIN = """
fn main(_: HostRuntime) -> io::Result<()> {
    Ok(())
}
"""


def reading():
    """The program, and the lines of the steps, by the names of their functions: those first after which what was found may be read."""
    text, right, wrong = HEAD, {}, {}
    for name, step, may in STEPS:
        of = f"read_while_{name}"
        text += f"\nfn {of}<R: Wait>(rt: &R, session: &mut Its<'_>, pass: &mut Own, other: &mut Own) -> bool {{\n    let found = session.find_by(rt, &1, pass);\n    "
        (right if may else wrong)[of] = text.count("\n") + 1
        text += f"{step}\n    found == Some((&1, &2)) && other_is(other)\n}}\n"
    return text + "\nfn other_is(_: &Own) -> bool {\n    true\n}\n" + MAIN, right, wrong


def main():
    print(f"late passes: {shown(NAME, BELOW, *reading(), REFUSALS)} reads refused")


if __name__ == "__main__":
    main()
