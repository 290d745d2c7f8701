#!/usr/bin/env python3
"""Prints the index of the workspace's files: each with the first sentence of its first comment.

    docs/index.py [CRATE..]  prints the sections of these crates, of all in the order of crates.txt where none is named
    docs/index.py --lacking  prints the files whose first line is no comment, and exits 1 if there are any

`Answers.antt` and `Invariants.antt` below `proofs/` hold goals that are answered by hand, and the invariants of loops, of the one function that their
folder is named for. They are counted and not listed.
"""
import os
import re
import sys

TOP = os.path.dirname(os.path.dirname(os.path.abspath(__file__)))
PARTS = [("src", ".rt"), ("specs", ".antt"), ("proofs", ".antt"), ("data", ".script")]
MARKS = {".rt": "//!", ".antt": "--", ".script": "#"}
# what a name says without a comment: the first belong to the function that their folder is named for, and `Lib` lists the modules
BY_NAME = ("Answers.antt", "Invariants.antt")
ROOTS = ("lib.rt", "main.rt")


def crates():
    """The names in crates.txt, in its order."""
    with open(os.path.join(TOP, "crates.txt"), encoding="utf-8") as lines:
        names = [line.split("#")[0].split(":")[0].split() for line in lines]
    return [name[0] for name in names if name]


def files_of(folder, ending):
    """Paths below a folder, relative to it, a folder's own files before those below them."""
    found = []
    for at, folders, files in os.walk(folder):
        folders[:] = sorted(f for f in folders if f != "out")
        found += [os.path.relpath(os.path.join(at, f), folder) for f in sorted(files) if f.endswith(ending)]
    return found


def block_from(lines, begins, mark):
    """The comment of this mark that begins at this line, as one text."""
    block = []
    for line in lines[begins:]:
        if not line.startswith(mark + " "):
            break
        block.append(line[len(mark):].strip())
    return " ".join(block)


def comments_of(path):
    """The comment of a file's first line, and, in code, that of the first item that has one."""
    with open(path, encoding="utf-8") as text:
        lines = text.read().splitlines()
    first = block_from(lines, 0, MARKS[os.path.splitext(path)[1]])
    item = next((i for i, line in enumerate(lines) if line.startswith("/// ")), len(lines))
    return first, block_from(lines, item, "///")


def sentence(text):
    """The first sentence, without its full stop."""
    first = re.split(r"(?<=[^.])\.(?:\s|$)", text, maxsplit=1)[0]
    return first.rstrip(".:")


def crate_lines(name, lacking):
    """The section of a crate."""
    base = os.path.join(TOP, "crates", name)
    roots = [os.path.join(base, "src", root) for root in ROOTS if os.path.exists(os.path.join(base, "src", root))]
    lines = ["", f"## {name}", ""] + [sentence(comments_of(root)[0]) + ".\n" for root in roots]
    for part, ending in PARTS:
        folder = os.path.join(base, part)
        counted = 0
        for file in files_of(folder, ending):
            if os.path.basename(file) in BY_NAME:
                counted += 1
                continue
            if file == "Lib.antt" or (part == "src" and file in ROOTS):
                continue
            first, item = comments_of(os.path.join(folder, file))
            said = sentence(first or item)
            if not first:
                lacking.append(f"crates/{name}/{part}/{file}")
            lines.append(f"- `{part}/{file}`: {said}" if said else f"- `{part}/{file}`")
        if counted:
            lines.append(f"- `{part}/`: {counted} files of answers and invariants")
    edits = files_of(os.path.join(base, "must-fail"), ".edit")
    if edits:
        lines.append(f"- `must-fail/`: {len(edits)} wrong {'body' if len(edits) == 1 else 'bodies'}")
    return lines


def main():
    asked = [name for name in sys.argv[1:] if not name.startswith("--")]
    unknown = [name for name in asked if name not in crates()]
    if unknown:
        sys.exit(f"docs/index.py: no such crate: {', '.join(unknown)}")
    lacking, lines = [], []
    for name in asked or crates():
        lines += crate_lines(name, lacking)
    if "--lacking" in sys.argv[1:]:
        print("\n".join(lacking))
        return 1 if lacking else 0
    print("\n".join(lines[1:]))
    return 0


sys.exit(main())
