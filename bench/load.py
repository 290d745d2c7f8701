#!/usr/bin/env python3
"""Random calls of all kinds on a map that threads share, and whether their answers are those of one map.

    python3 bench/load.py [PROGRAM] [--seconds N] [--threads N] [--keys N] [--refused] [--wrong | --planted]    exits 1 if something is wrong

PROGRAM is bench/load/main.program, built. Without it that is compiled and run by `rt try`, which proves nothing, in a folder of its own beside links to this
workspace's crates.

Rounds follow one another, each in a map of its own. In one half of them each call takes the next number of a counter that all threads share before it and
after it, and tells what it was and what it has answered. By key the calls are cut into windows at which none is under way, and each window is to be
linearizable: a search looks for an order of its calls, in which each that ended before another one began stands before that, that has all their answers. A
call on the whole map is cut by key, too: a walk is a lookup of each pair that it has shown, and no other pair may be there from its beginning to its end;
`clear` and `retain` may take pairs out meanwhile, and leave none of those that were there from the beginning and are not kept. Of `len` it is asked that it
is no more than there can be.

In the other half no call is counted, as a counter can hide a race: there by each key as many pairs are to have been stored as were removed and are left, but
where calls on the whole map are made, too. In each round each value that was made is to be dropped once, and in the end as many pairs are to be counted and
shown as are found. In a quarter of the rounds one session is lent to all threads, half of which look keys up under it.

With --refused requests of memory are refused now and then within calls, by a library that is put before the C library: that wants PROGRAM, and a C compiler.
With --wrong something is to be found, and it exits 1 if nothing is. With --planted it does so with wrong bodies, each in place of the right one in a copy of
its crate: a lookup that takes the pair of a table from which that was copied on, and an insertion that has lost a place to another one and takes its pair
for stored.
"""
import argparse
import itertools
import os
import resource
import shutil
import subprocess
import sys
import tempfile
import time

sys.dont_write_bytecode = True
TOP = os.path.dirname(os.path.dirname(os.path.abspath(__file__)))
sys.path.insert(0, os.path.join(TOP, "compile-fail"))

from programs import laid

NAME, BELOW = "random_calls", "papaya_map seize_words"
# how many calls a thread makes in a round whose calls are counted, and in one whose calls are not
CALLS = {1: 5_000, 0: 100_000}
# how many values may wait to be dropped, beside those that are there
MOST = 100_000
REFUSED = 1 << 63
# the kinds of calls, in the order of bench/load/told.program
GET, CONTAINS, INSERT, TRY, MAKE, REMOVE, REMOVE_IF, PUT, LEN, EMPTY, RESERVE, CLEAR, EACH, RETAIN, SHOWN, UPDATE, UPSERT, TAKE = range(18)
# what an act on a key asks of its value, 0 where it has none, and what it makes of it
IS, THERE, STORES, BEGINS, ENDS = range(5)
# wrong bodies: their names, and what stands in which file in place of what
PLANTED = [
    (
        "a lookup of a pair that was copied on",
        [
            (
                "map_straight/src/looking.rt",
                "        Finding::Moved => Glance::Ends(Sight::Stands(Looking::Nexts { table: trial.table })),\n",
                "        Finding::Moved => Glance::Ends(Sight::Ends(Some(word))),\n",
            )
        ],
    ),
    (
        "an insertion that has lost its place",
        [
            (
                "papaya_raw/src/machines/call/tries.rt",
                "            Err(found) => self.reads(memory, found, false),\n",
                "            Err(_) if word == 0 => self.change(word, new),\n            Err(found) => self.reads(memory, found, false),\n",
            ),
            (
                "map_straight/src/storing.rt",
                "        Err(found) => match read::<K, V, Q, M>(memory, setting, hash, there, own, trial, found) {\n",
                "        Err(_) if word == 0 => {\n            count(setting, memory, 0);\n            Stored::Answered(KeyAnswer::Stored(own))\n        }\n"
                "        Err(found) => match read::<K, V, Q, M>(memory, setting, hash, there, own, trial, found) {\n",
            ),
        ],
    ),
]
# refuses seven of eight requests of a thread, once that has asked for this many bytes, until it asks for two more
REFUSING = r"""
extern void *__libc_malloc(unsigned long);
extern void *__libc_realloc(void *, unsigned long);
static __thread unsigned refusing __attribute__((tls_model("initial-exec")));
static __thread unsigned turn __attribute__((tls_model("initial-exec")));
static int refused(unsigned long size) {
    if (size == 7654321) { refusing = 1; return 1; }
    if (size == 7654323) { refusing = 0; return 1; }
    return refusing && (turn = turn * 1103515245 + 12345) >> 29;
}
void *malloc(unsigned long size) { return refused(size) ? 0 : __libc_malloc(size); }
void *realloc(void *old, unsigned long size) { return refused(size) ? 0 : __libc_realloc(old, size); }
"""


class Wrong(Exception):
    """What was found."""


class Sweep:
    """A call on the whole map, as far as it meets one key: the values that it has shown and kept, and which it may take out."""

    def __init__(self, shown, kind, refused):
        self.kept = {value for value, kept in shown if kept}
        self.dropped = {value for value, kept in shown if not kept}
        self.clears = kind == CLEAR
        self.refused = refused

    def __repr__(self):
        return f"a sweep that has kept {sorted(self.kept)} and asked for {sorted(self.dropped)} to go"

    def takes(self, value):
        return value != 0 and (self.clears or value in self.dropped)

    def leaves(self, first, last):
        """Whether it may have met this value first, and leave that one."""
        return self.refused or (last not in self.dropped and (first == 0 or first != last or first in self.kept))


def keeps(number):
    """The test of bench/load/told.program."""
    return (number * 0x9E3779B97F4A7C15 & (1 << 64) - 1) >> 62 != 0


def acts(kind, value, answer):
    """What a call on one key has done: of each act what it asks, of which value, and which value it leaves, None for the one that was there."""
    if answer == REFUSED:
        return [(IS, value, None)] if kind == REMOVE_IF and value else []
    if kind == GET:
        return [(IS, answer, None)]
    if kind == CONTAINS:
        return [(THERE, answer, None)]
    if kind == INSERT:
        return [(IS, answer, value)]
    if kind == PUT:
        return [(STORES, 0, value)] if value else []
    if kind == TRY:
        return [(IS, 0, value)] if answer == value else [(IS, answer, None)]
    if kind == MAKE:
        if answer == 1:
            raise Wrong("a value was stored that was not made")
        made = [(IS, 0, None)] if answer == 2 else []
        return [(IS, 0, value)] if answer & 1 else made + [(THERE, 1, None)]
    if kind == UPDATE:
        return [(IS, answer, value if answer else None)]
    if kind == UPSERT:
        return [(IS, answer, value)]
    if kind in (TAKE, REMOVE):
        return [(IS, answer, 0)]
    if answer:
        if not value or keeps(value):
            raise Wrong("a pair was removed of which the test said no")
        return [(IS, value, 0)]
    return [(IS, value, None)] + ([(IS, 0, None)] if value and not keeps(value) else [])


def is_right(act, state):
    asks, value = act[2], act[3]
    return state == value if asks == IS else (state != 0) == value if asks == THERE else True


def free_of(calls, left):
    """Those left that may stand next: each that has begun when the first one of them has ended; and when that is. They are sorted by when they began."""
    free, first = [], float("inf")
    while left:
        n = (left & -left).bit_length() - 1
        if calls[n][0] > first:
            break
        free.append(n)
        first = min(first, calls[n][1])
        left &= left - 1
    return free, first


def certain(calls, free, state, begun):
    """One of these that may as well stand here, if there is one, and what has begun then: one that asks what is so and changes nothing; a sweep that begins, as an earlier
    beginning lets it take out more and leave as much; one that ends and takes nothing out."""
    for n in free:
        _, _, asks, value, leaves = calls[n]
        if asks <= THERE and leaves is None and is_right(calls[n], state):
            return n, begun
        if asks == BEGINS:
            return n, begun | {(id(value), state)}
        if asks == ENDS and not value.clears and not value.dropped:
            for mark in begun:
                if mark[0] == id(value) and value.leaves(mark[1], state):
                    return n, begun - {mark}
    return None, begun


def steps(call, first, state, begun):
    """What the state and what has begun may be after this act, and whether it is over then."""
    _, ended, asks, value, leaves = call
    if asks == ENDS:
        for mark in begun:
            if mark[0] == id(value) and ended == first and value.leaves(mark[1], state):
                yield state, begun - {mark}, True
            if mark[0] == id(value) and value.takes(state):
                # it has begun and has not ended, so it may take the pair out now
                yield 0, begun, False
    elif asks != BEGINS and is_right(call, state):
        yield state if leaves is None else leaves, begun, True


def possible(calls, states):
    """The values that a key may have after these acts, if it may have had these before them. An act is when it began and ended, what it asks, of which value,
    and what it leaves; of a sweep that begins or ends the value is that."""
    found, seen = set(), set()
    todo = [((1 << len(calls)) - 1, state, frozenset()) for state in states]
    while todo:
        one = todo.pop()
        if one in seen:
            continue
        seen.add(one)
        left, state, begun = one
        if not left:
            found.add(state)
            continue
        free, first = free_of(calls, left)
        sure, more = certain(calls, free, state, begun)
        if sure is not None:
            todo.append((left & ~(1 << sure), state, more))
            continue
        for n in free:
            for became, still, over in steps(calls[n], first, state, begun):
                todo.append((left & ~(1 << n) if over else left, became, still))
    return found


def by_key(told, keys):
    """The acts of each key."""
    all_acts, shown, sweeps = [[] for _ in range(keys)], {}, []
    for kind, key, value, answer, begun, ended in told:
        if kind == SHOWN:
            shown.setdefault((begun, ended), {}).setdefault(key, []).append((value, answer))
        elif kind in (CLEAR, EACH, RETAIN):
            sweeps.append((kind, answer, begun, ended))
        elif kind < LEN or kind > SHOWN:
            all_acts[key] += [(begun, ended, *act) for act in acts(kind, value, answer)]
    for kind, answer, begun, ended in sweeps:
        pairs = shown.get((begun, ended), {})
        for key in range(keys):
            of_key = pairs.get(key, [])
            if kind == EACH and len(set(of_key)) < len(of_key):
                raise Wrong(f"a pair of key {key} was shown twice in one walk")
            all_acts[key] += [(begun, ended, IS, value, None) for value, _ in set(of_key)]
            if not (of_key and all(kept for _, kept in of_key)):
                sweep = Sweep(of_key, kind, answer == REFUSED)
                all_acts[key] += [(begun, ended, BEGINS, sweep, None), (begun, ended, ENDS, sweep, None)]
    return all_acts


def told_of(window):
    """The acts of a window in words, each with when its call began and ended."""
    asks = ["has {}", "has one or not: {}", "has any", "{} begins", "{} ends"]
    return "; ".join(f"{act[0]} to {act[1]}: {asks[act[2]].format(act[3])}" + ("" if act[4] is None else f", then {act[4]}") for act in window)


def windows(told, keys, threads):
    """How many windows there were, and in how many calls overlap; fails where no order of the calls of one explains them."""
    many = overlapping = 0
    for kind, _, _, answer, _, _ in told:
        if kind == LEN and answer > keys + threads:
            raise Wrong(f"{answer} pairs were counted")
    for key, calls in enumerate(by_key(told, keys)):
        calls.sort(key=lambda act: act[:2])
        states, window, end = {0}, [], -1
        for call in itertools.chain(calls, [(float("inf"), 0)]):
            if call[0] > end and window:
                many += 1
                if len(window) == 1 and window[0][2] < BEGINS:
                    act = window[0]
                    before, states = states, {state if act[4] is None else act[4] for state in states if is_right(act, state)}
                else:
                    overlapping += 1
                    before, states = states, possible(window, states)
                if not states:
                    raise Wrong(f"no order of these calls on key {key} explains them, before which it may have had {sorted(before)}: {told_of(window)}")
                window = []
            window.append(call)
            end = max(end, call[1])
    return many, overlapping


class Load:
    """What was run so far."""

    def __init__(self, given):
        self.given = given
        self.rounds = self.calls = self.uncounted = self.windows = self.overlapping = self.values = self.most = self.refused = 0

    def lines(self, first, many):
        """So many rounds: of each its line, whether its calls are counted, and whether one session is lent."""
        for n in range(first, first + many):
            counted, whole, lent = n % 2, int(n % 2 == 1 or n % 4 == 0), int(n % 8 >= 6)
            yield f"{self.given.threads} {self.given.keys} {CALLS[counted]} {n} {counted} {whole} {lent} {int(self.given.refused)}\n", counted, lent

    def judges(self, told, counted, lent, words):
        """Judges a round by its calls and its last line."""
        made, dropped, sums, most, refused, wrong, unlike = map(int, words[1:])
        if counted:
            many, overlapping = windows(told, self.given.keys, self.given.threads)
            self.windows, self.overlapping, self.calls = self.windows + many, self.overlapping + overlapping, self.calls + self.given.threads * CALLS[1]
        else:
            self.uncounted += self.given.threads * CALLS[0]
        self.rounds, self.values, self.refused = self.rounds + 1, self.values + made, self.refused + refused
        if made != dropped or not sums:
            raise Wrong(f"{made} values were made, and {dropped} dropped; their sums are {'' if sums else 'not '}the same")
        if wrong or unlike:
            raise Wrong(f"{wrong} answers can't be, and {unlike} keys have a sum that is not what was found in the end")
        if not lent:
            self.most = max(self.most, most)
            if most > self.given.keys + MOST:
                raise Wrong(f"{most} values waited to be dropped")
        if refused and not self.given.refused:
            raise Wrong("a call was refused")

    def runs(self, command, where, env, first, many):
        """Runs so many rounds in one process."""
        rounds = list(self.lines(first, many))
        with tempfile.TemporaryFile("w+") as asked, tempfile.TemporaryFile("w+") as said:
            asked.write("".join(line for line, _, _ in rounds))
            asked.seek(0)
            with subprocess.Popen(command, cwd=where, env=env, stdin=asked, stdout=subprocess.PIPE, stderr=said, text=True) as ran:
                told, ended = [], 0
                try:
                    for line in ran.stdout:
                        words = line.split()
                        if words[:1] == ["c"]:
                            told.append(tuple(map(int, words[1:])))
                        elif words[:1] == ["round"]:
                            _, counted, lent = rounds[ended]
                            self.judges(told, counted, lent, words)
                            told, ended = [], ended + 1
                except Wrong:
                    ran.terminate()
                    raise
            said.seek(0)
            if ran.returncode or ended < many:
                raise Wrong(f"the program has ended with {ran.returncode} after {ended} rounds of {many}: {said.read()[-2000:]}")

    def loads(self, command, where, env, together):
        """Runs rounds for so long."""
        end = time.monotonic() + self.given.seconds
        while time.monotonic() < end:
            self.runs(command, where, env, self.rounds + 1, together)

    def __str__(self):
        memory = resource.getrusage(resource.RUSAGE_CHILDREN).ru_maxrss // 1024
        return (
            f"{self.rounds} rounds, {self.calls} calls counted, {self.windows} windows, in {self.overlapping} calls overlap, "
            f"{self.uncounted} calls not counted, {self.values} values, at most {self.most} at once, {self.refused} calls refused, at most {memory} MB"
        )


def compiler():
    """A C compiler: that of the machine, or else of the kit."""
    page = subprocess.run(["rt", "doc"], stdout=subprocess.PIPE, text=True, check=True).stdout.strip()
    return shutil.which("cc") or f"{os.path.dirname(page)}/toolchain/bin/clang"


def loaded(given, planted=()):
    """Runs the load, with these wrong bodies, if any; what was found, if anything was."""
    load = Load(given)
    with tempfile.TemporaryDirectory(prefix=f"{NAME}-") as room:
        env = dict(os.environ)
        if given.refused:
            with open(f"{room}/refusing.c", "w", encoding="utf-8") as it:
                it.write(REFUSING)
            subprocess.run([compiler(), "-shared", "-fPIC", "-O1", "-o", f"{room}/refusing.so", f"{room}/refusing.c"], check=True)
            env["LD_PRELOAD"] = f"{room}/refusing.so"
        if given.program:
            command, where, together = [os.path.abspath(given.program)], room, 8
        else:
            laid(room, NAME, BELOW, "", planted)
            command, where, together = ["rt", "try", "--steps", "1000000000000000", "--seconds", "100000"], f"{room}/crates/{NAME}", 16
            for name in os.listdir(f"{TOP}/bench/load"):
                shutil.copyfile(f"{TOP}/bench/load/{name}", f"{where}/src/{name.removesuffix('.program')}.rt")
        try:
            load.loads(command, where, env, together)
            found = None
        except Wrong as wrong:
            found = str(wrong)
    print(f"{load}: {found or 'nothing wrong'}", flush=True)
    return found


def main():
    parser = argparse.ArgumentParser(description=__doc__, formatter_class=argparse.RawDescriptionHelpFormatter)
    parser.add_argument("program", nargs="?")
    parser.add_argument("--seconds", type=int, default=60)
    parser.add_argument("--threads", type=int, default=4)
    parser.add_argument("--keys", type=int, default=1000)
    parser.add_argument("--refused", action="store_true")
    parser.add_argument("--wrong", action="store_true")
    parser.add_argument("--planted", action="store_true")
    given = parser.parse_args()
    if given.refused and not given.program or given.planted and given.program:
        parser.error("--refused wants a program, and --planted none")
    for name, planted in PLANTED if given.planted else [("", ())]:
        if name:
            print(f"{name}: ", end="")
        if bool(loaded(given, planted)) != (given.wrong or given.planted):
            sys.exit(1)


if __name__ == "__main__":
    main()
