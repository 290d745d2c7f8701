#!/usr/bin/env python3
"""Runs a program once for each request for memory that it makes, with that one refused: each time it must end well, and print the same.

    refusals/each_request.py [PROGRAM]    exits 1 if a run ends or prints otherwise, and then says which request was refused

PROGRAM is built, with its wanted output in a file `stdout` beside its folder out/: as it has no input here, it prints how that begins. Without it, it is each of
those that `rt ci` has built in crates/papaya_seq_tests, crates/seize_collector_tests and crates/papaya_json_tests, and nothing is printed where all is well. Its
requests are calls of malloc and realloc, so a library is put before the C library that refuses one of them.
"""
import os
import shutil
import subprocess
import sys
import tempfile

TOP = os.path.dirname(os.path.dirname(os.path.abspath(__file__)))
PROGRAMS = [f"{TOP}/crates/{name}/out/{name}" for name in ("papaya_seq_tests", "seize_collector_tests", "papaya_json_tests")]
# refuses the request with the number in REFUSED, and then writes a byte to the open file with the number in TOLD
REFUSING = r"""
extern void *__libc_malloc(unsigned long);
extern void *__libc_realloc(void *, unsigned long);
extern char *getenv(const char *);
extern long atol(const char *);
extern long write(int, const void *, unsigned long);
static long asked;
static int refused(void) {
    if (++asked != atol(getenv("REFUSED"))) return 0;
    write(atol(getenv("TOLD")), "", 1);
    return 1;
}
void *malloc(unsigned long size) { return refused() ? 0 : __libc_malloc(size); }
void *realloc(void *old, unsigned long size) { return refused() ? 0 : __libc_realloc(old, size); }
"""
# more requests than the program makes: of one that goes over what asks for no memory so many times, fewer than that
MOST = 100_000
ROUNDS = {"seize_collector_tests": 1_000}


def compiler():
    """A C compiler: that of the machine, or else of the kit."""
    page = subprocess.run(["rt", "doc"], stdout=subprocess.PIPE, text=True, check=True).stdout.strip()
    return shutil.which("cc") or f"{os.path.dirname(page)}/toolchain/bin/clang"


def run(program, library, number):
    """Whether the request with this number was made, and so refused; and the status and the output of that run."""
    seen, told = os.pipe()
    with os.fdopen(seen, "rb") as it:
        ran = subprocess.run(
            [program], env={"LD_PRELOAD": library, "REFUSED": str(number), "TOLD": str(told)}, pass_fds=[told], stdin=subprocess.DEVNULL,
            stdout=subprocess.PIPE, stderr=subprocess.STDOUT, timeout=60, check=False,
        )
        os.close(told)
        return bool(it.read()), ran.returncode, ran.stdout


def tried(program, library):
    """How many requests a program makes, each of which was refused in a run of its own that ended well."""
    _, status, wanted = run(program, library, 0)
    with open(f"{os.path.dirname(os.path.dirname(program))}/stdout", "rb") as it:
        begins = it.read().startswith(wanted)
    if status or not wanted or not begins:
        sys.exit(f"each request: with none refused, {program} ends with status {status}, or prints otherwise")
    for number in range(1, MOST):
        was, status, said = run(program, library, number)
        if status or said != wanted:
            sys.stderr.buffer.write(said)
            sys.exit(f"each request: with request {number} refused, {program} ends with status {status}")
        if not was:
            break
    if number > ROUNDS.get(os.path.basename(program), MOST):
        sys.exit(f"each request: {program} makes {number - 1} requests, so what should ask for none asks for some")
    if number < 2 or was:
        sys.exit(f"each request: {program}: " + ("none was refused" if number < 2 else f"more than {MOST} requests"))
    return number - 1


def main():
    programs = [os.path.abspath(sys.argv[1])] if len(sys.argv) > 1 else PROGRAMS
    with tempfile.TemporaryDirectory(prefix="refusals-") as room:
        with open(f"{room}/refusing.c", "w", encoding="utf-8") as it:
            it.write(REFUSING)
        library = f"{room}/refusing.so"
        subprocess.run([compiler(), "-shared", "-fPIC", "-fno-builtin", "-O1", "-nostdlib", "-o", library, f"{room}/refusing.c"], check=True)
        requests = [tried(program, library) for program in programs]
    if len(sys.argv) > 1:
        print(f"each request: {requests[0]} refused, one a run")


if __name__ == "__main__":
    main()
