#!/usr/bin/env python3
"""Prints the definitions and lemmas that no contract reaches: none that functions, types and traits write, and no answer to what these leave to be shown.

    .ci/unreached.py [CRATE..]   those of these crates, of all where none is named, each with its file; exits 1 if there are any

What begins the search: what code cites; the files of `proofs/` in folders named for functions, which answer goals or are walks over raw words; what stands in a folder or
file `Samples`, since that shows what definitions refuse; and what a `Given` gives on by name, for proofs of users. From there it goes by names, each resolved through
imports and `Given`; a file's inner modules are one with it.
"""
import functools
import glob
import os
import re
import sys

TOP = os.path.join(os.path.dirname(os.path.abspath(__file__)), "..")
NAME = re.compile(r"[^\s(){}\[\],;.:@\"]+")
QUALIFIED = re.compile(r"(Rattle(?:\.[\w+]+)+|\b[^\W\d]\w*)\.([^\s(){}\[\],;.:@\"]+)")
USE = re.compile(r"^\s*(?:pub |ghost )?use ([\w.+\-]+)(?:\.\{([^}]*)\}| as (\w+))?;?\s*$", re.M)
GHOST = re.compile(r"ghost use ([\w.+\-]+)(?:\.\{([^}]*)\}| as (\w+))?;", re.S)
USING = re.compile(r"\b(\w+)::(proofs|specs)::([\w:]+)::([^\W\d][\w'\-]*)")
ITEM = re.compile(r"(?:(?:pub|abbrev|record|data|opaque|unfoldable) )*([^\s:({]+)")
NONE = ("use ", "pub use ", "mod ", "pub mod ", "open ", "infix")


class Item:
    """A definition or lemma: where it stands, and all that is written of it, with the heads of the modules around it."""

    def __init__(self, file, name, line):
        self.file, self.name, self.line, self.text, self.places, self.reached = file, name, line, [], [], False


class File:
    """A file of specs, proofs or code: what it imports under which names, and what it defines."""

    def __init__(self, crate, path):
        self.crate, self.path, self.items, self.others = crate, path, {}, []
        with open(os.path.join(TOP, path), encoding="utf-8") as file:
            self.text = file.read()
        self.names, self.modules = {}, {}
        for module, listed, alias in (GHOST if path.endswith(".rt") else USE).findall(self.text):
            if listed:
                for part in listed.split(","):
                    name, _, other = part.strip().partition(" as ")
                    self.names[other.strip() or name] = (module, name)
            else:
                self.modules[alias or module.rpartition(".")[2]] = module

    def take(self):
        """The items of a file of specs or proofs."""
        heads, item = [], None
        for number, line in enumerate(self.text.split("\n"), 1):
            said = line.strip()
            if not said or said.startswith("--"):
                continue
            indent = len(line) - len(line.lstrip())
            while heads and heads[-1][1] is not None and indent < heads[-1][1]:
                heads.pop()
            if heads and heads[-1][1] is None:
                if not heads[-1][3]:
                    heads[-1][2].append(said)
                    heads[-1][3] = said.endswith("where")
                    continue
                heads[-1][1] = indent
            at = heads[-1][1] if heads else 0
            if indent == at and (said.startswith("module ") or re.fullmatch(r"(?:abbrev |pub )*mutual", said)):
                heads.append([indent, None, [said], said.endswith(("where", "mutual"))])
                self.others.append(heads[-1][2])
                item = None
                continue
            begins = ITEM.match(said) if indent == at and said[0] not in "})]" and not said.startswith("unfolding ") else None
            if begins:
                if said.startswith(NONE):
                    item = None
                    continue
                name = begins[1]
                if item is None or item.name != name:
                    item = self.items.get(name) or Item(self, name, number)
                    self.items[name] = item
                    item.text += [text for head in heads for text in head[2]]
            if item is not None:
                item.text.append(re.sub(r"\s-- .*", "", said))
                item.places.append(number - 1)
                maker = re.match(r"([^\s:({]+) :", said)
                if indent > at and maker and maker[1][:1].isupper():
                    self.items.setdefault(maker[1], item)


def crates():
    with open(os.path.join(TOP, "crates.txt"), encoding="utf-8") as lines:
        return [name.strip() for name, colon, _ in (line.split("#")[0].partition(":") for line in lines) if colon]


class Search:
    def __init__(self):
        self.files, self.given, self.work = {}, {}, []
        self.crates = crates()
        for crate in self.crates:
            for part, ending in (("specs", "antt"), ("proofs", "antt"), ("src", "rt")):
                base = f"crates/{crate}/{part}"
                for path in glob.glob(f"{base}/**/*.{ending}", root_dir=TOP, recursive=True):
                    file = File(crate, path)
                    module = f"Rattle.{crate}.{part}." + path[len(base) + 1:].rpartition(".")[0].replace("/", ".")
                    self.files[module] = file
                    if part != "src":
                        file.take()

    @functools.lru_cache(maxsize=None)
    def resolve(self, module):
        """A module's path as it is where it stands, through each `Given` and each head that gives it on."""
        for _ in range(60):
            parts = module.split(".")
            for most in range(len(parts) - 1, 2, -1):
                file = self.files.get(".".join(parts[:most]))
                if file is not None and most < len(parts) and parts[most] in file.modules and ".".join(parts[: most + 1]) not in self.files:
                    module = ".".join([file.modules[parts[most]]] + parts[most + 1:])
                    break
            else:
                return module
        return module

    def items_of(self, module, name):
        """What a name of a module may mean: an item of its file, or of one that it gives on."""
        module = self.resolve(module)
        parts = module.split(".")
        while len(parts) > 3:
            file = self.files.get(".".join(parts))
            if file is not None:
                if name in file.items:
                    return [file.items[name]]
                if name in file.names and file.names[name][0] != module:
                    return self.items_of(*file.names[name])
                return []
            parts.pop()
        return []

    def cited(self, file, text):
        """The items that a text of a file names."""
        for module, name in set(QUALIFIED.findall(text)):
            if module in file.modules:
                yield from self.items_of(file.modules[module], name)
            elif module.startswith("Rattle."):
                yield from self.items_of(module, name)
        for name in set(NAME.findall(text)):
            if name in file.items:
                yield file.items[name]
            elif name in file.names:
                yield from self.items_of(*file.names[name])
        for name, (module, real) in file.names.items():
            if "◌" in name and all(part in text for part in name.split("◌") if part):
                yield from self.items_of(module, real)
        for name, item in file.items.items():
            if "◌" in name and all(part in text for part in name.split("◌") if part):
                yield item

    def reach(self, items):
        for item in items:
            if not item.reached:
                item.reached = True
                self.work.append(item)

    def run(self):
        for file in self.files.values():
            path = file.path.split("/")
            answers = path[2] == "proofs" and not path[3][:1].isupper()
            if path[2] == "src":
                self.reach(self.cited(file, file.text))
                for crate, part, module, name in USING.findall(file.text):
                    home = file.crate if crate == "crate" else crate
                    self.reach(self.items_of(f"Rattle.{home}.{part}." + module.replace("::", "."), name))
            elif path[-1] == "Given.antt":
                for module, name in file.names.values():
                    self.reach(self.items_of(module, name))
            elif answers or any(part.partition(".")[0] == "Samples" for part in path):
                self.reach(file.items.values())
                for head in file.others:
                    self.reach(self.cited(file, "\n".join(head)))
        while self.work:
            item = self.work.pop()
            self.reach(self.cited(item.file, "\n".join(item.text)))


def main():
    search = Search()
    wanted = sys.argv[1:] or search.crates
    search.run()
    found = {}
    for file in search.files.values():
        for item in file.items.values():
            if not item.reached and file.crate in wanted:
                found[id(item)] = item
    left = sorted(found.values(), key=lambda item: (wanted.index(item.file.crate), item.file.path, item.line))
    for item in left:
        print(f"{item.file.path}:{item.line}: {item.name}, {len(item.places)} lines")
    print(f"{len(left)} definitions and lemmas that no contract reaches, {sum(len(item.places) for item in left)} lines")
    return 1 if left else 0


if __name__ == "__main__":
    sys.exit(main())
