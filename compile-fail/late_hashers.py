#!/usr/bin/env python3
"""Shows that a builder takes a hasher as long as no collector was given to it, and none afterwards: such programs compile, and do not.

    compile-fail/late_hashers.py    compiles a program of functions that choose a hasher before and after a collector, and exits 1 if one that is right is
                                    refused, or one that is wrong is not

The program is compiled in a folder of its own beside links to this workspace's crates, and is not proved or run.
"""
import sys

sys.dont_write_bytecode = True

from programs import shown

NAME, BELOW = "late_hashers", "papaya"
HEAD = """//! Chooses a hasher before a collector, and after it.
#![tactic(auto)]

use papaya::{Collector, Given, HashMapBuilder, HashSetBuilder};
use std::hash::{BuildHasherDefault, DefaultHasher};
use std::io;

type Hashing = BuildHasherDefault<DefaultHasher>;

type MapFree = HashMapBuilder<u64, u64, Hashing>;

type MapBound = HashMapBuilder<u64, u64, Hashing, Given>;

type SetFree = HashSetBuilder<u64, Hashing>;

type SetBound = HashSetBuilder<u64, Hashing, Given>;
"""
HASHER, COLLECTOR = "builder.hasher(Hashing::default())", "builder.collector(collector)"
REFUSALS = {"unknown-method", "unsatisfied-bound"}
MAIN = """
fn main(_: HostRuntime) -> io::Result<()> {
    Ok(())
}
"""


def choosing():
    """The program, and the lines on which the hasher is chosen, by the names of their functions: those before a collector first."""
    text, right, wrong = HEAD, {}, {}
    for of in ("Map", "Set"):
        for kind, first, then in ((right, HASHER, COLLECTOR), (wrong, COLLECTOR, HASHER)):
            name = f"{of.lower()}_{'before' if kind is right else 'after'}"
            text += f"\nfn {name}(builder: {of}Free, collector: Collector) -> {of}Bound {{\n    let builder = {first};\n    {then}\n}}\n"
            kind[name] = text[: text.rindex(HASHER)].count("\n") + 1
    return text + MAIN, right, wrong


def main():
    print(f"late hashers: {shown(NAME, BELOW, *choosing(), REFUSALS)} choices refused")


if __name__ == "__main__":
    main()
