//! Times calls on the hash map of Rust's standard library, as crates/benches does on Rattle's, with the same keys and the same hash function.

use std::collections::HashMap;
use std::hash::{BuildHasherDefault, Hasher};
use std::io;
use std::time::Instant;

const MULTIPLIER: u64 = 0x9e37_79b9_7f4a_7c15;

/// `FoldHasher` of Rattle's standard library, for keys of eight bytes.
struct Fold(u64);

impl Default for Fold {
    fn default() -> Fold {
        Fold(0x243f_6a88_85a3_08d3)
    }
}

impl Hasher for Fold {
    fn finish(&self) -> u64 {
        self.0
    }

    fn write(&mut self, _bytes: &[u8]) {
        unreachable!("keys are numbers of eight bytes")
    }

    fn write_u64(&mut self, key: u64) {
        let product = u128::from(self.0 ^ key) * u128::from(MULTIPLIER ^ 16);
        self.0 = product as u64 ^ (product >> 64) as u64;
    }
}

type Map = HashMap<u64, u64, BuildHasherDefault<Fold>>;

fn key(index: u64) -> u64 {
    index.wrapping_mul(0xd134_2543_de82_ef95)
}

/// Indices below a number of keys, in leaps.
struct Leaps {
    at: u64,
    by: u64,
    keys: u64,
}

impl Leaps {
    fn below(keys: u64) -> Leaps {
        Leaps { at: 0, by: 7919 % keys.max(1), keys }
    }

    fn leap(&mut self) -> u64 {
        let at = self.at;
        let next = at.wrapping_add(self.by);
        self.at = if next < self.keys { next } else { next.wrapping_sub(self.keys) };
        at
    }
}

fn total(map: &Map) -> u64 {
    map.values().fold(0, |sum, value| sum.wrapping_add(*value))
}

fn look(map: &Map, first: u64, keys: u64, turns: u64) -> u64 {
    let mut leaps = Leaps::below(keys);
    let mut sum: u64 = 0;
    for _ in 0..turns {
        let index = first.wrapping_add(leaps.leap());
        sum = sum.wrapping_add(map.get(&key(index)).copied().unwrap_or(0));
    }
    sum
}

fn take_turns(map: &mut Map, kind: &str, keys: u64, turns: u64) -> u64 {
    let mut leaps = Leaps::below(keys);
    match kind {
        "hit" => look(map, 0, keys, turns),
        "miss" => look(map, keys, keys, turns),
        "iterate" => (0..turns / keys.max(1)).fold(0, |sum: u64, _| sum.wrapping_add(total(map))),
        "replace" => {
            for _ in 0..turns {
                let index = leaps.leap();
                map.insert(key(index), index.wrapping_add(1));
            }
            total(map)
        }
        "window" => {
            for oldest in 0..turns {
                let next = oldest.wrapping_add(keys);
                map.insert(key(next), next);
                map.remove(&key(oldest));
            }
            total(map)
        }
        "in_turn" => {
            for _ in 0..turns {
                let index = leaps.leap();
                map.remove(&key(index));
                map.insert(key(index), index);
            }
            total(map)
        }
        _ => panic!("no kind {kind}"),
    }
}

fn main() {
    for line in io::stdin().lines() {
        let line = line.unwrap();
        let words: Vec<&str> = line.split_whitespace().collect();
        let (kind, keys, turns) = (words[1], words[2].parse().unwrap(), words[3].parse().unwrap());
        let mut map = Map::default();
        let start = Instant::now();
        for index in 0..keys {
            map.insert(key(index), index);
        }
        let filling = start.elapsed();
        let start = Instant::now();
        let (took, sum) = match kind {
            "insert" => (filling, total(&map)),
            _ => {
                let sum = take_turns(&mut map, kind, keys, turns);
                (start.elapsed(), sum)
            }
        };
        println!("{line}: {sum}");
        eprintln!("{}", took.as_nanos());
    }
}
