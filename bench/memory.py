#!/usr/bin/env python3
"""Runs reclaimed_map under valgrind's memcheck on random scripts.

    python3 bench/memory.py [PROGRAM] [--seeds FIRST COUNT] [--lines N] [--jobs N] [--plain] [--show SEED]

PROGRAM is the built program. Without it the one is taken that `rt run` has built in crates/reclaimed_map
(`cd crates/reclaimed_map && rt run < stdin`), in its folder out/.

A script is made of its seed alone, so a seed that is told here can be run again: `--show SEED` prints its script. The kinds of
line and how often each comes stand in WEIGHTS. A line names what was named before, mostly what is still there, so that most
lines are events that are carried out, and some are refused. In half of the scripts all comes to its end behind them: calls,
guards, maps and registrations, and then the collector is closed, or reclaims all.

Each seed that memcheck finds something in, or at which the program ends with another status than 0, is told, with what was
found. `--plain` runs the program without valgrind. The status is 1 where anything was found.
"""

import argparse
import concurrent.futures
import os
import random
import subprocess
import sys

ROOT = os.path.dirname(os.path.dirname(os.path.abspath(__file__)))
BUILT = os.path.join(ROOT, "crates", "reclaimed_map", "out", "reclaimed_map")

# what valgrind answers where it found something
FOUND = 99

# how often each kind of line comes
WEIGHTS = {
    "call": 400,
    "begin": 110,
    "step": 60,
    "refused step": 8,
    "go": 110,
    "refused go": 4,
    "reply": 50,
    "next": 30,
    "stop": 8,
    "choose": 30,
    "enter": 40,
    "own": 10,
    "refresh": 30,
    "flush": 20,
    "drop": 40,
    "forget": 2,
    "register": 12,
    "unregister": 8,
    "map": 5,
    "end": 8,
    "shape": 6,
    "reclaim_all": 3,
    "close": 0.05,
    "wrong": 0.2,
}

# how often each call comes
CALLS = {
    "get": 15,
    "insert": 40,
    "try_insert": 12,
    "remove": 30,
    "remove_if": 8,
    "compute": 25,
    "reserve": 3,
    "clear": 2,
    "retain": 4,
    "len": 3,
    "walk": 15,
}

# what a call that asks is mostly told
REPLIES = {
    "compute": ["insert", "insert", "remove", "abort"],
    "remove_if": ["yes", "no"],
    "retain": ["yes", "no"],
}

# by which such a call, or a walk, comes to its end
ENDINGS = {
    "compute": "reply {0} abort w\ngo {0}\n",
    "remove_if": "reply {0} no\ngo {0}\n",
    "retain": "reply {0} no\ngo {0}\n" * 8,
    "walk": "stop {0}\n",
}

# these need no line more
WHOLE = ["get", "insert", "try_insert", "remove", "reserve", "clear", "len"]


class Script:
    """What a script has named so far."""

    def __init__(self, seed):
        self.random = random.Random(seed)
        self.registrations = []
        self.guards = []
        self.maps = []
        self.callers = {}
        self.called = {}
        self.given = []
        self.keys = self.random.choice([4, 20, 100, 1000])

    def new(self, kind):
        """A name of its own."""
        self.given.append(f"{kind}{len(self.given) + 1}")
        return self.given[-1]

    def some(self, names):
        """A name that was given, or now and then one that was not."""
        if not names or self.random.random() < 0.01:
            return "nobody"
        return self.random.choice(names)

    def gone(self, names):
        """A name whose bearer ends, if the event is carried out."""
        name = self.some(names)
        if name in names:
            names.remove(name)
        return name

    def value(self):
        return "v" + str(self.random.randrange(1000))

    def kind(self, kinds):
        return self.random.choices(kinds, [CALLS[kind] for kind in kinds])[0]

    def call(self, kind):
        """A call with its arguments."""
        key = self.random.randrange(self.keys)
        if kind in ("insert", "try_insert"):
            return f"{kind} {key} {self.value()}"
        if kind in ("get", "remove", "remove_if", "compute"):
            return f"{kind} {key}"
        if kind == "reserve":
            return f"{kind} {self.random.choice([1, 10, 100, 500])}"
        return kind

    def reply(self):
        """A caller's reply, mostly one that its call asks for, with the steps up to it and behind it."""
        asking = [name for name, kind in self.callers.items() if kind in REPLIES]
        name = self.some(asking)
        kind = self.random.choice(REPLIES[self.callers.get(name, "compute")])
        self.over(name, ["compute", "remove_if"])
        if kind in ("insert", "abort"):
            kind = f"{kind} {self.value()}"
        return f"go {name}\nreply {name} {kind}\ngo {name}"

    def map_line(self):
        name = self.new("m")
        self.maps.append(name)
        if self.random.random() < 0.3:
            return f"map {name} block {self.random.choice([0, 1, 40])}"
        return f"map {name} inc {self.random.choice([1, 4, 64])} {self.random.choice([0, 1, 40])}"

    def caller(self):
        return self.some(list(self.callers))

    def over(self, name, kinds):
        """A caller whose call ends so, mostly, if it is one of these kinds."""
        if self.callers.get(name) in kinds and self.random.random() < 0.9:
            del self.callers[name]
        return name

    def walker(self):
        return self.some([name for name, kind in self.callers.items() if kind == "walk"] or list(self.callers))

    def begun(self):
        """A call of a caller, mostly of a new one."""
        kind = self.kind(list(CALLS))
        if self.callers and self.random.random() < 0.3:
            name = self.random.choice(list(self.callers))
        else:
            name = self.new("c")
            if len(self.callers) > 2:
                del self.callers[next(iter(self.callers))]
        self.callers[name] = kind
        self.called[name] = kind
        return f"begin {name} {self.some(self.guards)} {self.some(self.maps)} {self.call(kind)}"

    def guard_line(self, kind):
        name = self.new("g")
        self.guards.append(name)
        if len(self.guards) > 12:
            self.guards.pop(0)
        return f"own {name}" if kind == "own" else f"enter {name} {self.some(self.registrations)}"

    def registered(self):
        name = self.new("r")
        self.registrations.append(name)
        return f"register {name}"

    def line(self, kind):
        """A line of a kind."""
        if kind in ("enter", "own"):
            return self.guard_line(kind)
        if kind in ("refresh", "flush"):
            return f"{kind} {self.some(self.guards)}"
        if kind in ("drop", "forget"):
            return f"{kind} {self.gone(self.guards)}"
        if kind == "go":
            return f"{kind} {self.over(self.caller(), WHOLE)}"
        if kind in ("next", "stop"):
            name = self.walker()
            if kind == "stop":
                self.over(name, ["walk"])
            return f"go {name}\n{kind} {name}"
        makers = {
            "call": lambda: f"call {self.some(self.guards)} {self.some(self.maps)} {self.call(self.kind(WHOLE))}",
            "begin": self.begun,
            "step": lambda: f"step {self.caller()}",
            "refused step": lambda: f"step {self.caller()} nomem",
            "refused go": lambda: f"go {self.caller()} nomem",
            "reply": self.reply,
            "choose": lambda: f"choose {self.random.randrange(50)}",
            "register": self.registered,
            "unregister": lambda: f"unregister {self.gone(self.registrations)}",
            "map": self.map_line,
            "end": lambda: f"end {self.gone(self.maps)}",
            "shape": lambda: f"shape {self.some(self.maps)}",
            "wrong": lambda: self.random.choice(["", "get", "call g m", "insert 1 x"]),
        }
        return makers[kind]() if kind in makers else kind

    def lacking(self):
        """The kind of line without which most of the others are refused, if one is wanted."""
        if not self.registrations:
            return "register"
        if not self.maps:
            return "map"
        return None if self.guards else "enter"

    def ending(self):
        """All comes to its end, but for calls that ask too often."""
        for name, kind in self.called.items():
            yield f"go {name}"
            yield from ENDINGS.get(kind, "").format(name).split("\n")[:-1]
        for kind, ends in (("g", "drop"), ("m", "end"), ("r", "unregister")):
            yield from [f"{ends} {name}" for name in self.given if name.startswith(kind)]
        yield self.random.choice(["close", "reclaim_all"])

    def lines(self, count):
        """So many lines: first what most of the others need."""
        if self.random.random() < 0.7:
            yield f"collector {self.random.choice([1, 2, 8, 32])} {self.random.choice([1, 4])} {self.random.choice([8, 32])}"
        if self.random.random() < 0.2:
            yield "hash zero"
        for kind in ("register", "register", "map", "enter", "enter", "own"):
            yield self.line(kind)
        for _ in range(count):
            yield from self.line(self.lacking() or self.random.choices(list(WEIGHTS), WEIGHTS.values())[0]).split("\n")
        if self.random.random() < 0.5:
            yield from self.ending()


def script_of(seed, lines):
    """The text of a seed's script. A wrong line ends the program, so it comes last, if at all."""
    text = list(Script(seed).lines(lines))
    for place, line in enumerate(text):
        if not line or line.split()[0] in ("get", "insert") or line == "call g m":
            text = text[: place + 1]
            break
    return "".join(line + "\n" for line in text)


def run_seed(program, seed, lines, plain):
    """What is to be told of a seed: nothing where all is well."""
    checked = [] if plain else ["valgrind", "-q", "--leak-check=full", "--show-leak-kinds=all", "--errors-for-leak-kinds=all", f"--error-exitcode={FOUND}"]
    done = subprocess.run(checked + [program], input=script_of(seed, lines).encode(), stdout=subprocess.DEVNULL, stderr=subprocess.PIPE, check=False)
    told = done.stderr.decode(errors="replace")
    wrong_line = done.returncode == 1 and told.startswith("line ")
    if done.returncode == 0 or wrong_line:
        return None
    return f"seed {seed}: status {done.returncode}\n{told}"


def main():
    parser = argparse.ArgumentParser(description="Runs reclaimed_map under memcheck on random scripts.")
    parser.add_argument("program", nargs="?", default=BUILT)
    parser.add_argument("--seeds", nargs=2, type=int, default=[1, 2000], metavar=("FIRST", "COUNT"))
    parser.add_argument("--lines", type=int, default=300)
    parser.add_argument("--jobs", type=int, default=1)
    parser.add_argument("--plain", action="store_true")
    parser.add_argument("--show", type=int, metavar="SEED")
    given = parser.parse_args()
    if given.show is not None:
        sys.stdout.write(script_of(given.show, given.lines))
        return 0
    first, count = given.seeds
    found = 0
    with concurrent.futures.ThreadPoolExecutor(given.jobs) as pool:
        for told in pool.map(lambda seed: run_seed(given.program, seed, given.lines, given.plain), range(first, first + count)):
            if told:
                found += 1
                print(told)
    print(f"seeds {first} to {first + count - 1}, {given.lines} lines each: {found} found")
    return 1 if found else 0


if __name__ == "__main__":
    sys.exit(main())
