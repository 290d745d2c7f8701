#!/usr/bin/env python3
"""Shows that what a guard lends cannot be read once it has ended, or has taken a step, that it stays on its thread, and that nobody empties a collector
meanwhile, or lets go of a block that is to be spent: such programs do not compile.

    compile-fail/late_guards.py   compiles a program of functions that read early or late, one of functions that send what may be sent and what
                                  may not, and two of blocks and collectors, and exits 1 if one that is right is refused, or one that is wrong is not

The programs are compiled in a folder of their own beside links to this workspace's crates, and are not proved or run.
"""
import sys

sys.dont_write_bytecode = True

from programs import shown

NAME, BELOW = "late_guards", "seize_collector seize_guards seize_shared seize_blocks seize"
HEAD = """//! Guards that are used as they may be used, and as they may not.
#![tactic(auto)]
ghost use Rattle.std.specs.Prelude.{None, false};

use seize::rows::{Defers, LeftOver};
use seize_blocks::Home;
use seize_collector::Collector;
use seize_guards::{Desk, DeskGuard};
use seize_shared::{
    Before, Caller, Fixed, Guard, LocalGuard, OfRows, Owned, OwnedGuard, Pass, Registration, RootGuard, Shared, Unlinked,
};
use std::io;
use std::thread;
use std::thread::Threads;

const CHOSEN: Fixed = Fixed {
    batch_size: 5,
    roots: 1,
    chains: 0,
};

struct Plain;

impl Drop for Plain {
    fn drop(self) {
        let Plain = self;
    }
}

impl Defers for Plain {
    ghost defers = { λ _. None };

    fn deferred(&self) -> Option<u64> {
        None
    }
}

impl LeftOver for Plain {
    ghost left_over = { λ _. false };

    fn is_left_over(&self) -> bool {
        false
    }
}
"""
# what ends the lending of what a guard has seen
ENDS = [("end", "drop(guard);"), ("refresh", "guard.refresh();"), ("look", "let _ = guard.see(0);")]
LATE = {"borrow-e0502", "borrow-e0505"}
# how a guard lends what it has seen, and how what a pass has found under it
SEES = ["let _ = guard.see(0);", "let lent = guard.value();"]
FINDS = ["let Ok(Some(found)) = guard.protect_by(0, pass) else { return false; };", "let lent = found.get();"]
# of whom a guard is entered: the name, the function's parameter, how, and how a value is lent
ENTERS = [
    ("", "(registration: &mut Registration<'_, Plain>)", "let mut guard = registration.enter();", SEES),
    ("desk_", "(desk: &Desk<'_, Plain>)", "let Ok(mut guard) = desk.enter() else { return false; };", SEES),
    ("pass_", "(registration: &mut Registration<'_, Plain>, pass: &mut Pass<Plain>)", "let mut guard = registration.enter();", FINDS),
    ("owned_pass_", "(collector: &Shared<'_, Plain>, pass: &mut Pass<Plain>)", "let Ok(mut guard) = collector.enter_owned() else { return false; };", FINDS),
]
# of these there is a caller in the program
CALLED = [""]
# a pass may go on, and end, under a guard that lends what it has found
GOES_ON = [("step", "let _ = guard.protect_by(0, pass);"), ("none", "let _ = pass.number();")]
# who is sent to another thread, or shared with it, by its type and what is done there; and whether that may be
SENT = [
    ("caller_sent", "caller: Caller<'_, Plain>", "move || drop(caller)", True),
    ("owned_sent", "guard: OwnedGuard<'_, Plain>", "move || drop(guard)", True),
    ("owned_shared", "guard: &OwnedGuard<'_, Plain>", "|| guard.thread_id()", True),
    ("pass_sent", "pass: Pass<Plain>", "move || drop(pass)", True),
    ("collector_shared", "collector: &Shared<'_, Plain>", "|| collector.register().is_ok()", True),
    ("guard_sent", "guard: LocalGuard<'_, '_, Plain>", "move || drop(guard)", False),
    ("guard_shared", "guard: &LocalGuard<'_, '_, Plain>", "|| guard.thread_id()", False),
    ("registration_sent", "registration: Registration<'_, Plain>", "move || drop(registration)", False),
    ("desk_sent", "desk: Desk<'_, Plain>", "move || drop(desk)", True),
    ("desk_shared", "desk: &Desk<'_, Plain>", "|| desk.enter().is_ok()", False),
    ("desk_guard_sent", "guard: DeskGuard<'_, '_, Plain>", "move || drop(guard)", False),
]
STAYS = {"unsatisfied-bound"}
# who has a collector that is to be emptied
EMPTIES = "collector.reclaim_all();"
HAD = [("registration", "collector.register().ok()"), ("guard", "collector.enter_owned().ok()"), ("shared", "collector.shared()")]
# blocks, and how they are spent
SPENT = [
    ("owned", "owned: Owned<'_, Plain>", "drop(owned.into_value());"),
    ("before", "before: Before<'_, Plain>", "if let Some(old) = before.block() { old.kept(); }"),
    ("unlinked", "old: Unlinked<'_, Plain>", "old.kept();"),
]
LINEAR = {"linear-value-let-go"}
MAIN = """
fn main(rt: HostRuntime) -> io::Result<()> {
    if let Ok(home) = Home::<Plain, OfRows>::open(rt.alloc(), 1, 8, &CHOSEN) {
        if let Ok(mut registration) = Registration::new(&home.blocks, &CHOSEN) {
%s        }
    }
    Ok(())
}
"""


def reading():
    """The program of reads, and the lines of what ends the lending, by the names of their functions: early reads first."""
    text, early, late, called = HEAD, {}, {}, []
    for who, takes, enters, lends in ENTERS:
        goes_on = GOES_ON if lends is FINDS else []
        for name, ends in ENDS + goes_on:
            ways = [(early, "early", ["let is = lent.is_some();", ends, "is"]), (late, "late", [ends, "lent.is_some()"])]
            for kind, when, rest in [(early, "still", ways[1][2])] if (name, ends) in goes_on else ways:
                of = f"{who}{name}_{when}"
                text += f"\nfn {of}{takes} -> bool {{\n" + "".join(f"    {line}\n" for line in [enters, *lends, *rest]) + "}\n"
                kind[of] = text[: text.rindex(ends)].count("\n") + 1
                called += [of] if who in CALLED else []
    return text + MAIN % "".join(f"            let _ = {of}(&mut registration);\n" for of in called), early, late


def sending():
    """The program of threads, and the lines where they begin, by the names of their functions: those that may first."""
    text, right, wrong = HEAD, {}, {}
    for of, takes, does, may in SENT:
        text += f"\nfn {of}<R: Threads + Sync>(rt: &R, {takes}) {{\n    thread::join(rt, {does}, || ());\n}}\n"
        (right if may else wrong)[of] = text[: text.rindex("thread::join")].count("\n") + 1
    return text + MAIN % "            drop(registration);\n", right, wrong


def emptying():
    """The program of collectors that are emptied, and the lines where they are: where nobody has them first."""
    text, right, wrong = HEAD, {}, {}
    for of, has in HAD:
        for kind, order in ((right, [f"let had = {has};", "drop(had);", EMPTIES]), (wrong, [f"let had = {has};", EMPTIES, "drop(had);"])):
            name = f"{of}_{'before' if kind is right else 'meanwhile'}"
            text += f"\nfn {name}(collector: &mut Collector<Plain>) {{\n" + "".join(f"    {line}\n" for line in order) + "}\n"
            kind[name] = text[: text.rindex(EMPTIES)].count("\n") + 1
    return text + MAIN % "            drop(registration);\n", right, wrong


def spending():
    """The program of blocks that have to be spent, and the lines of their functions: those that spend them first."""
    text, right, wrong = HEAD, {}, {}
    for of, takes, spends in SPENT:
        for kind, line in ((right, spends), (wrong, "")):
            text += f"\nfn {of}_{'spent' if kind is right else 'let_go'}({takes}) {{\n    {line}\n}}\n"
            kind[f"{of}_{'spent' if kind is right else 'let_go'}"] = text.count("\n") - 2
    return text + MAIN % "            drop(registration);\n", right, wrong


def main():
    late = shown(NAME, BELOW, *reading(), LATE)
    stay = shown(NAME, BELOW, *sending(), STAYS)
    early = shown(NAME, BELOW, *emptying(), LATE)
    kept = shown(NAME, BELOW, *spending(), LINEAR)
    print(f"late guards: {late} reads refused, {stay} ways to another thread, {early} of emptying a collector that is lent, and {kept} of losing a block")


if __name__ == "__main__":
    main()
