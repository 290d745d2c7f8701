#!/usr/bin/env python3
"""Shows that what a session lends cannot be read once it has taken a step, or has ended, and that a session ends before its map, which stays on its thread: such
programs do not compile.

    compile-fail/late_sessions.py   compiles a program of functions that read early or late, and one of functions that send what may be sent and what
                                    may not, and exits 1 if one that is right is refused, or one that is wrong is not

The programs are compiled in a folder of their own beside links to this workspace's crates, and are not proved or run.
"""
import sys

sys.dont_write_bytecode = True

from programs import shown

NAME, BELOW = "late_sessions", "papaya_map"
HEAD = """//! Sessions that are used as they may be used, and as they may not.
#![tactic(auto)]

use papaya_map::{HashMap, IdSource, Session, SharedMap};
use std::hash::{BuildHasherDefault, DefaultHasher};
use std::io;
use std::sync::Wait;
use std::thread;
use std::thread::Threads;

type Hashing = BuildHasherDefault<DefaultHasher>;

type Map = HashMap<u64, u64, Hashing>;

type Lent<'m> = SharedMap<'m, u64, u64, Hashing>;

type Its<'m> = Session<'m, u64, u64, Hashing>;
"""
# what ends the lending of a value that a session has found
ENDS = [
    ("end", "drop(session);"),
    ("refresh", "session.refresh();"),
    ("look", "let _ = session.get(rt, &2);"),
    ("insert", "let _ = session.insert(rt, 1, 3);"),
    ("remove", "let _ = session.remove(rt, &1);"),
]
LATE = {"borrow-e0502", "borrow-e0505", "borrow-e0499"}
# who is sent to another thread, or shared with it, by its type and what is done there; and whether that may be
SENT = [
    ("session_sent", "session: Its<'_>", "move || drop(session)", True),
    ("lent_shared", "lent: &Lent<'_>", "|| lent.session().is_ok()", True),
    ("map_shared", "map: &Map", "|| map.session().is_ok()", False),
]
STAYS = {"unsatisfied-bound"}
MAIN = """
fn main(rt: HostRuntime) -> io::Result<()> {
    let mut ids = IdSource::new();
    let map = Map::with_hasher(rt.alloc(), &mut ids, Hashing::default())?;
%s    Ok(())
}
"""


def reading():
    """The program of reads, and the lines of what ends the lending, by the names of their functions: early reads first."""
    text, early, late = HEAD, {}, {}
    for name, ends in ENDS:
        begin = ["let mut session = session;", "let lent = session.get(rt, &1);"]
        for kind, rest in ((early, ["let is = lent.is_some();", ends, "is"]), (late, [ends, "lent.is_some()"])):
            of = f"{name}_{'early' if kind is early else 'late'}"
            text += f"\nfn {of}<R: Wait>(rt: &R, session: Its<'_>) -> bool {{\n" + "".join(f"    {line}\n" for line in begin + rest) + "}\n"
            kind[of] = text[: text.rindex(ends)].count("\n") + 1
    ends = "drop(map);"
    for kind, rest in ((early, ["drop(session);", ends]), (late, [ends, "drop(session);"])):
        of = f"map_{'early' if kind is early else 'late'}"
        text += f"\nfn {of}(map: Map) {{\n    let session = map.session();\n" + "".join(f"    {line}\n" for line in rest) + "}\n"
        kind[of] = text[: text.rindex(ends)].count("\n") + 1
    return text + MAIN % "    let _ = map.session()?;\n", early, late


def sending():
    """The program of threads, and the lines where they begin, by the names of their functions: those that may first."""
    text, right, wrong = HEAD, {}, {}
    for of, takes, does, may in SENT:
        text += f"\nfn {of}<R: Threads + Sync>(rt: &R, {takes}) {{\n    thread::join(rt, {does}, || ());\n}}\n"
        (right if may else wrong)[of] = text[: text.rindex("thread::join")].count("\n") + 1
    return text + MAIN % "    let _ = map.session()?;\n", right, wrong


def main():
    late = shown(NAME, BELOW, *reading(), LATE)
    stay = shown(NAME, BELOW, *sending(), STAYS)
    print(f"late sessions: {late} reads refused, and {stay} way to another thread")


if __name__ == "__main__":
    main()
