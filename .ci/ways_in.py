"""Follows the ways of CONTRIBUTING.md, "Five ways in", and fails where a name is gone: each file of a way is there and has its words, and it is named where the words of an earlier one stand."""
import os
import re
import sys

TOP = os.path.join(os.path.dirname(os.path.abspath(__file__)), "..")
MOST = 3


def text_of(path):
    with open(os.path.join(TOP, path), encoding="utf-8") as file:
        return file.read()


def names(line, path, text):
    """Whether a line names a file: by its path, or by its name alone where the text has that of its crate."""
    if path in line:
        return True
    name = os.path.splitext(os.path.basename(path))[0]
    crate = path.split("/")[1] if path.startswith("crates/") else None
    return crate is not None and crate in text and re.search(rf"\b{re.escape(name)}\b", line) is not None


def faults_of(way):
    """What is wrong with a way, which is files with words to look for, the first of them README.md."""
    if way[0][0] != "README.md" or not 2 <= len(way) <= MOST + 1:
        yield f"a way goes from README.md over {MOST} files at most"
    seen = []
    for path, words in way:
        if not os.path.isfile(os.path.join(TOP, path)):
            yield f"{path} is not there"
            continue
        text = text_of(path)
        lines = [line for line in text.split("\n") if words in line]
        if not lines:
            yield f'{path} has no "{words}"'
        if seen and not any(names(line, path, before) for before, found in seen for line in found):
            yield f"{path} is not named where the words stand that lead there"
        seen.append((text, lines))


def main():
    section = text_of("CONTRIBUTING.md").partition("\n## Five ways in\n")[2].partition("\n## ")[0]
    ways = re.findall(r"^- (.*?):(.*(?:\n  .*)*)", section, re.M)
    faults = [] if len(ways) == 5 else [f"{len(ways)} ways in CONTRIBUTING.md"]
    for told, steps in ways:
        way = re.findall(r'`([^`]+)`\s+"([^"]+)"', steps)
        faults += [f"{told}: {fault}" for fault in (faults_of(way) if way else ["no files"])]
    for fault in faults:
        print(fault)
    print(f"{len(ways)} ways in, {len(faults)} faults")
    return 1 if faults else 0


sys.exit(main())
