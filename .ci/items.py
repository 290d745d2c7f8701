#!/usr/bin/env python3
"""Compares the table of items in docs/DIFFERENCES.md with the code of the map and the set that threads share.

Each item that a row has here must be public there, each public item must be in a row, what lacks must be there nowhere, and each call but those of the last row must be
called by a test. Exits 1, and says which are not so, where one is not."""
import os
import re
import sys

TOP = os.path.dirname(os.path.dirname(os.path.abspath(__file__)))
CRATES = ("papaya_sessions", "papaya_map", "papaya_maps", "papaya", "papaya_json")
TESTS = ("papaya_tests", "papaya_maps_tests", "papaya_json_tests")
HEAD = "| `papaya` | here | |"
TYPE = r"(?:<[^{]*?>\s+)?(?:[\w:]+(?:<.*?>)?\s+for\s+)?(\w+)"


def public(text):
    """The public items of a file: its types, what it gives on, and the calls of its types."""
    text = re.sub(r"//.*", "", text)
    found = set(re.findall(r"^pub (?:struct|enum|trait|type) (\w+)", text, re.M))
    for names in re.findall(r"^pub use [\w:]+::(?:\{([^}]*)\}|(\w+));", text, re.M):
        found |= set(re.findall(r"\w+", names[0] or names[1]))
    of = None
    for line in text.splitlines():
        begins = re.match(r"impl" + TYPE, line)
        if begins:
            of = None if re.match(r"impl.*\sfor\s", line) else begins[1]
        call = re.match(r"    pub fn (\w+)", line)
        if call and of:
            found.add(f"{of}::{call[1]}")
    return found


def texts(crates):
    """The files of these crates."""
    for crate in crates:
        for at, _, files in os.walk(f"{TOP}/crates/{crate}/src"):
            for name in files:
                with open(f"{at}/{name}", encoding="utf-8") as file:
                    yield file.read()


def code():
    """The public items of these crates."""
    return set().union(*map(public, texts(CRATES)))


def items(cell):
    """The items that a cell names; `Type::{call,other}` is two of them."""
    for name in re.findall(r"`([\w:{},]+)`", cell):
        of, braced, calls = name.partition("{")
        yield from (of + call for call in calls.rstrip("}").split(",")) if braced else [name]


def rows():
    """The rows of the table: the crate's items, those here, which `=` says are the same, and how they differ."""
    with open(f"{TOP}/docs/DIFFERENCES.md", encoding="utf-8") as file:
        lines = file.read().split(HEAD, 1)[1].splitlines()[2:]
    for line in lines:
        if not line.startswith("|"):
            return
        crate, here, how = (cell.strip() for cell in line.strip("|").split("|"))
        yield set(items(crate)), set(items(crate if here == "=" else here)), here == "lacks", how


def main():
    there, named, wrong, tests = code(), set(), [], "".join(texts(TESTS))
    theirs = [name for crate, _, _, _ in rows() for name in crate]
    wrong += [f"{name} has two rows" for name in sorted(set(theirs)) if theirs.count(name) > 1]
    for crate, here, lacks, how in rows():
        named |= here
        wrong += [f"{name} is not in the code" for name in sorted(here - there)]
        wrong += [f"{name} lacks, and is in the code" for name in sorted(crate & there) if lacks]
        if here and crate and not how.startswith(("stands", "differs: ")):
            wrong.append(f"the row of {sorted(here)[0]} says not whether it stands")
        if crate:
            wrong += [f"no test calls {name}" for name in sorted(here) if "::" in name and not re.search(rf"[.:]{name.split('::')[1]}\(", tests)]
    wrong += [f"{name} has no row" for name in sorted(there - named)]
    print("\n".join(wrong) or f"{len(set(theirs))} items of the crate, {len(named)} here")
    sys.exit(bool(wrong))


if __name__ == "__main__":
    main()
