#!/usr/bin/env python3
"""Shows that what a map for one owner lends cannot be read once its next change has begun, nor be put into another map: such programs do not compile.

    compile-fail/late_reads.py    compiles a program of functions that read early or late, and exits 1 if one that reads early is
                                  refused, or one that reads late is not; and one that puts what is lent into another map, and exits 1
                                  if that is not refused

The programs are compiled in a folder of their own beside links to this workspace's crates, and are not proved or run.
"""
import sys

sys.dont_write_bytecode = True

from programs import compiled

NAME, BELOW = "late_reads", "papaya_seq map_forms"
HEAD = """//! Reads what a map lent before its next change, or after it began.
#![tactic(auto)]

use papaya_seq::{HashMap, HashSet};
use std::hash::{BuildHasherDefault, DefaultHasher};
use std::io;

type Map = HashMap<u64, u64, BuildHasherDefault<DefaultHasher>>;
type Set = HashSet<u64, BuildHasherDefault<DefaultHasher>>;
"""
# what is lent, by a call of a map or of a set, with a type to hold it, and how it is read
LENT = [
    ("get", "map: &mut Map", "map.get(&1)", "lent.is_some_and(|value| *value == 2)"),
    ("get_key_value", "map: &mut Map", "map.get_key_value(&1)", "lent.is_some_and(|pair| *pair.1 == 2)"),
    ("iter", "map: &mut Map", "map.iter().next()", "lent.is_some_and(|pair| *pair.1 == 2)"),
    ("keys", "map: &mut Map", "map.keys().next()", "lent.is_some_and(|key| *key == 1)"),
    ("values", "map: &mut Map", "map.values().next()", "lent.is_some_and(|value| *value == 2)"),
    ("taken", "map: &mut Map", "map.taken()", "lent.is_some_and(|pair| *pair.1 == 2)"),
    ("met", "map: &mut Map", "map.met()", "lent.is_some_and(|pair| *pair.1 == 2)"),
    ("get_or_insert", "map: &mut Map", "map.get_or_insert(1, 2)", "lent.is_ok_and(|there| *there.value() == 2)"),
    ("get_or_insert_with", "map: &mut Map", "map.get_or_insert_with(1, || 2)", "lent.is_ok_and(|there| *there.value() == 2)"),
    ("insert", "map: &mut Map", "map.insert(1, 2)", "lent.is_ok_and(|done| done.value().is_some_and(|value| *value == 2))"),
    ("update", "map: &mut Map", "map.update(1, |n| *n)", "lent.is_ok_and(|done| done.value().is_some_and(|value| *value == 2))"),
    ("update_or_insert", "map: &mut Map", "map.update_or_insert(1, |n| *n, 2)", "lent.is_ok_and(|there| *there.value() == 2)"),
    ("remove_if", "map: &mut Map", "map.remove_if(&1, |_, n| *n == 2)", "lent.is_ok_and(|gone| gone.is_ok())"),
    ("remove", "map: &mut Map", "map.remove(&1)", "lent.is_ok_and(|value| value.is_some_and(|value| *value == 2))"),
    ("remove_entry", "map: &mut Map", "map.remove_entry(&1)", "lent.is_ok_and(|pair| pair.is_some_and(|pair| *pair.1 == 2))"),
    ("get_of_a_set", "map: &mut Set", "map.get(&1)", "lent.is_some_and(|element| *element == 1)"),
    ("iter_of_a_set", "map: &mut Set", "map.iter().next()", "lent.is_some_and(|element| *element == 1)"),
    ("taken_of_a_set", "map: &mut Set", "map.taken()", "lent.is_some_and(|element| *element == 1)"),
    ("met_of_a_set", "map: &mut Set", "map.met()", "lent.is_some_and(|element| *element == 1)"),
]
CHANGE = "let _ = map.clear();"
# a change while the map is lent, or while a change has lent it
REFUSALS = {"borrow-e0502", "borrow-e0499"}
MAIN = """
fn main(rt: HostRuntime) -> io::Result<()> {
    if let (Ok(mut map), Ok(mut set)) = (Map::new(rt.alloc()), Set::new(rt.alloc())) {
%s    }
    Ok(())
}
"""
# a clone that would share its pairs with the map, where they own memory
SHARING = """//! Puts what a map lends into another one.
#![tactic(auto)]

use map_forms::Text;
use papaya_seq::HashMap;
use std::hash::{BuildHasherDefault, DefaultHasher};
use std::io;

type Map = HashMap<Text, u64, BuildHasherDefault<DefaultHasher>>;

fn shares(map: &Map, clone: &mut Map) {
    for (key, value) in map.iter() {
        let _ = clone.insert(*key, *value);
    }
}

fn main(rt: HostRuntime) -> io::Result<()> {
    if let (Ok(map), Ok(mut clone)) = (Map::new(rt.alloc()), Map::new(rt.alloc())) {
        shares(&map, &mut clone);
    }
    Ok(())
}
"""
SHARED = "clone.insert(*key, *value)"


def program():
    """The program, and the lines of its changes, by the names of their functions: early reads first."""
    text, early, late = HEAD, {}, {}
    for name, taken, call, read in LENT:
        for kind, body in ((early, [f"let lent = {call};", f"let is = {read};", CHANGE, "is"]), (late, [f"let lent = {call};", CHANGE, read])):
            of = f"{name}_{'early' if kind is early else 'late'}"
            text += f"\nfn {of}({taken}) -> bool {{\n" + "".join(f"    {line}\n" for line in body) + "}\n"
            kind[of] = text[: text.rindex(CHANGE)].count("\n") + 1
    calls = "".join(f"        let _ = {of}(&mut {'set' if 'set' in of else 'map'});\n" for of in [*early, *late])
    return text + MAIN % calls, early, late


def main():
    text, early, late = program()
    said, errors = compiled(NAME, BELOW, text)
    refused = {int(line) for line, code in errors if code in REFUSALS}
    wrong = [f"{name} compiles" for name, line in late.items() if line not in refused]
    wrong += [f"{name} is refused" for name, line in early.items() if line in refused]
    wrong += [f"line {line}: {code}" for line, code in errors if int(line) not in {*early.values(), *late.values()} or code not in REFUSALS]
    if wrong or not errors:
        print(said)
        sys.exit(f"late reads: {'; '.join(wrong) or 'nothing was refused'}")
    said, errors = compiled(NAME, BELOW, SHARING)
    if errors != [(str(SHARING[: SHARING.index(SHARED)].count("\n") + 1), "move-out-of-place")]:
        print(said)
        sys.exit("late reads: a pair that is lent is put into another map")
    print(f"late reads: {len(late)} refused, {len(early)} early ones compile; a pair that is lent stays in its map")


if __name__ == "__main__":
    main()
