#!/usr/bin/env python3
"""Shows that what is lent of a map that shares its collector can't be read once its guard, or the map, has ended, that a session ends before its map, and guards and maps before the
collector; that the collector, guards and sessions stay on their thread; and that the end of another map takes nothing away: such programs do not compile, or do.

    compile-fail/late_maps.py   compiles a program of functions that read early or late, and exits 1 if one that is right is refused, or one that is wrong is not

The program is compiled in a folder of its own beside links to this workspace's crates, and is not proved or run.
"""
import sys

sys.dont_write_bytecode = True

from programs import shown

NAME, BELOW = "late_maps", "papaya_maps"
HEAD = """//! Maps that share a collector, as they may be used, and as they may not.
#![tactic(auto)]

use papaya_maps::{CollectorGuard, CollectorMap, CollectorPass, CollectorRegistration, CollectorSession, IdSource, SharedCollector};
use std::hash::{BuildHasherDefault, DefaultHasher};
use std::io;
use std::sync::Wait;
use std::thread;
use std::thread::Threads;

type Hashing = BuildHasherDefault<DefaultHasher>;

type Shared = SharedCollector<u64, u64, Hashing>;

type Map<'c> = CollectorMap<'c, u64, u64, Hashing>;

type Guard<'c> = CollectorGuard<'c, u64, u64, Hashing>;

type Pass = CollectorPass<u64, u64, Hashing>;

type Slot<'c> = CollectorRegistration<'c, u64, u64, Hashing>;

type Own<'g, 'c> = CollectorSession<'g, 'c, u64, u64, Hashing>;
"""
# what ends the lending of a value that was found in a map
ENDS = [
    ("guard", "drop(guard);"),
    ("refresh", "guard.refresh();"),
    ("leave", "drop(guard.leave());"),
    ("map", "drop(map);"),
]
# what doesn't
STAYS = [
    ("other", "drop(other);"),
    ("pass", "drop(pass);"),
    ("look", "let _ = map.get(rt, &2, &guard, &mut pass);"),
    ("remove", "let _ = map.remove(rt, &1, &guard, &mut pass);"),
]
# who is sent to another thread, or shared with it, by its type and what is done there; and whether that may be
SENT = [
    ("pass_sent", "pass: Pass", "move || drop(pass)", True),
    ("slot_sent", "slot: Slot<'_>", "move || drop(slot)", True),
    ("map_sent", "map: Map<'_>", "move || drop(map)", True),
    ("map_shared", "map: &Map<'_>", "|| map.number()", True),
    ("collector_shared", "shared: &Shared", "|| shared.number()", False),
    ("guard_sent", "guard: Guard<'_>", "move || drop(guard)", False),
    ("guard_shared", "guard: &Guard<'_>", "|| guard.number()", False),
    ("session_sent", "session: Own<'_, '_>", "move || drop(session)", False),
]
REFUSED = {"unsatisfied-bound"}
LATE = {"borrow-e0502", "borrow-e0505", "borrow-e0499"}
TAKES = "<R: Wait>(rt: &R, map: Map<'_>, other: Map<'_>, guard: Guard<'_>, pass: Pass) -> bool"
MAIN = """
fn main(rt: HostRuntime) -> io::Result<()> {
    let mut ids = IdSource::new();
    let shared = Shared::new(rt.alloc(), &mut ids, 1, 1)?;
    let _ = shared.guard()?;
    Ok(())
}
"""


def function(of, signature, lines):
    return f"\nfn {of}{signature} {{\n" + "".join(f"    {line}\n" for line in lines) + "}\n"


def program():
    """The program, and the lines of what ends the lending, by the names of their functions: those that may first."""
    text, early, late = HEAD, {}, {}
    begin = ["let (map, other) = (map, other);", "let mut guard = guard;", "let mut pass = pass;", "let lent = map.get(rt, &1, &guard, &mut pass);"]
    for name, ends in STAYS + ENDS:
        for kind, rest in ((early, ["let is = lent.is_ok();", ends, "is"]), (late, [ends, "lent.is_ok()"])):
            of = f"{name}_{'early' if kind is early else 'late'}"
            text += function(of, TAKES, begin + rest)
            (early if (name, ends) in STAYS else kind)[of] = text[: text.rindex(ends)].count("\n") + 1
    for name, takes, first, ends in (("session", "map: Map<'_>, guard: Guard<'_>", "let session = map.session(&guard);", "drop(map);"), ("collector", "shared: Shared", "let session = shared.guard();", "drop(shared);"),
                                     ("maps", "shared: Shared", "let session = shared.builder(Hashing::default()).build();", "drop(shared);")):
        for kind, rest in ((early, ["drop(session);", ends]), (late, [ends, "drop(session);"])):
            of = f"{name}_{'early' if kind is early else 'late'}"
            text += function(of, f"({takes})", [first] + rest)
            kind[of] = text[: text.rindex(ends)].count("\n") + 1
    return text + MAIN, early, late


def sending():
    """The program of threads, and the lines where they begin, by the names of their functions: those that may first."""
    text, right, wrong = HEAD, {}, {}
    for of, takes, does, may in SENT:
        text += f"\nfn {of}<R: Threads + Sync>(rt: &R, {takes}) {{\n    thread::join(rt, {does}, || ());\n}}\n"
        (right if may else wrong)[of] = text[: text.rindex("thread::join")].count("\n") + 1
    return text + MAIN, right, wrong


def main():
    late = shown(NAME, BELOW, *program(), LATE)
    print(f"late maps: {late} reads refused, {shown(NAME, BELOW, *sending(), REFUSED)} ways to another thread")


if __name__ == "__main__":
    main()
