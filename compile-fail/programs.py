"""Compiles a program in a folder of its own beside links to this workspace's crates, without proving or running it."""
import os
import re
import shutil
import subprocess
import sys
import tempfile

TOP = os.path.dirname(os.path.dirname(os.path.abspath(__file__)))


def laid(room, name, below, text, planted=()):
    """Lays this program, which stands on these crates, into a folder beside links to them. What is planted is another text there: a file below crates/, what
    stands in it, and what in its place."""
    with open(f"{TOP}/crates.txt", encoding="utf-8") as lines, open(f"{room}/crates.txt", "w", encoding="utf-8") as to:
        to.write(lines.read() + f"{name}: {below}\n")
    os.symlink(f"{TOP}/HANDLES", f"{room}/HANDLES")
    other = {file.split("/")[0] for file, _, _ in planted}
    for crate in os.listdir(f"{TOP}/crates"):
        os.makedirs(f"{room}/crates/{crate}")
        for part in ("src", "specs", "proofs"):
            if os.path.isdir(f"{TOP}/crates/{crate}/{part}"):
                (shutil.copytree if crate in other else os.symlink)(f"{TOP}/crates/{crate}/{part}", f"{room}/crates/{crate}/{part}")
    for file, old, new in planted:
        with open(f"{room}/crates/{file}", encoding="utf-8") as it:
            was = it.read()
        if was.count(old) != 1:
            raise ValueError(f"{file} has not one place with {old}")
        with open(f"{room}/crates/{file}", "w", encoding="utf-8") as it:
            it.write(was.replace(old, new))
    os.makedirs(f"{room}/crates/{name}/src")
    with open(f"{room}/crates/{name}/src/main.rt", "w", encoding="utf-8") as it:
        it.write(text)


def compiled(name, below, text):
    """What the compiler says of this program, which stands on these crates, and the lines and codes of its errors."""
    with tempfile.TemporaryDirectory(prefix=f"{name}-") as room:
        laid(room, name, below, text)
        ran = subprocess.run(["rt", "try"], cwd=f"{room}/crates/{name}", stdout=subprocess.PIPE, stderr=subprocess.STDOUT, text=True, check=False)
        return ran.stdout, re.findall(r"^src/main\.rt:(\d+):\d+: error\[([\w-]+)\]", ran.stdout, re.M)


def shown(name, below, program, right, wrong, codes):
    """Whether the compiler refuses just these functions, by their names and lines, with these codes; and how many."""
    said, errors = compiled(name, below, program)
    refused = {int(line) for line, code in errors if code in codes}
    bad = [f"{of} compiles" for of, line in wrong.items() if line not in refused]
    bad += [f"{of} is refused" for of, line in right.items() if line in refused]
    bad += [f"line {line}: {code}" for line, code in errors if int(line) not in {*right.values(), *wrong.values()} or code not in codes]
    if bad or not errors:
        print(said)
        sys.exit(f"{name}: {'; '.join(bad) or 'nothing was refused'}")
    return len(wrong)
