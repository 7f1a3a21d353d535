#!/usr/bin/env python3
"""Refuses each allocation, read, write and call of a file of `ehc` once, on small files, and says which answers are not as they should be.

A call that is refused (refusals.c) may change nothing: then all is as without it. Else the status is 6, 5 or 4 with its text, nothing is stored or
left beside, and standard output is empty, or after a write fault has a beginning of its lines. A read or a write that moves one byte or is
interrupted changes nothing ever. The table has how many calls of a kind each command makes, and how many runs ended with each status; below it
stands each answer that is not so, and then the script's status is 1. What is made lies in folders of their own.
"""
import collections
import os
import pathlib
import subprocess
import sys
import tempfile

from building import TOP, program, run

EHC = program()
KINDS, MOST = ["alloc", "io", "file", "short", "again"], 20_000
SOURCES = {
    "SRC": b"int main() { write_int(5); return 3; }",
    "DEEP": b"int f(int n) { if (n == 0) return 0; return f(n - 1) + 1; } int main() { write_int(f(126)); return 0; }",
    "THROWS": b"struct A { int n; A(int k) { n = k; } ~A() { write_int(n); } }; void f() { A x(1); A y(2); throw 7; } "
              b"int main() { try { A z(3); f(); } catch (int e) { write_int(e); } return 0; }",
    "RAISES": b"int main() { try { __module(0, 1); } catch (...) { write_int(read_byte()); } return 0; }",
    "WRONG": b"int main() { return x; }",
    "IN": b"A", "SCHED": b"0 9\n1 20000\n0 20000\n",
}
COMMANDS = [
    ["compile", "SRC", "NEW"], ["compile", "SRC", "OLD"], ["compile", "WRONG", "OLD"], ["exec", "ONE"], ["exec", "IMG", "--in=IN", "--count"],
    ["run", "SRC"], ["run", "THROWS", "--trace"], ["run", "RAISES", "--in=IN", "--foreign=r7,v5*3", "--foreign=v1", "--trace"],
    ["mean", "DEEP"], ["mean", "THROWS", "--trace"], ["check", "V1"], ["dump", "V1"], ["check", "CUT"], ["frames", "BOTH"], ["frames", "DIFFERS"],
    ["pack", "LONG", "NEW"], ["pack", "LONG", "OLD"], ["pack", "CUT", "OLD"], ["gen", "1"], ["harts", "IMG", "SCHED", "--in=IN", "--in=SRC"], ["exec", "NONE"], ["run"],
]
TEXTS = {4: b"ehc: read fault: ", 5: b"ehc: write fault\n", 6: b"ehc: no memory\n"}


class Answer:
    """What a run left: status, standard output and error, and the files of its folder."""

    def __init__(self, words, files, shim=None, refused=None):
        with tempfile.TemporaryDirectory() as folder:
            here = pathlib.Path(folder)
            for name, content in files.items():
                (here / name).write_bytes(content)
            with tempfile.TemporaryDirectory() as beside:
                note = pathlib.Path(beside) / "reached"
                env = {"LD_PRELOAD": str(shim), "REFUSE": refused, "NOTE": str(note)} if refused else {}
                done = subprocess.run([EHC, *words], cwd=here, env=env, stdin=subprocess.DEVNULL, capture_output=True, timeout=60)
                self.is_reached = note.exists()
            self.status, self.out, self.err = done.returncode, done.stdout, done.stderr
            self.files = {file.name: file.read_bytes() for file in here.iterdir()}

    def is_as(self, other):
        return (self.status, self.out, self.err, self.files) == (other.status, other.out, other.err, other.files)

    def told(self):
        return f"status {self.status}, {len(self.out)} bytes out, {self.err!r}, files {sorted(self.files)}"


def is_fit(kind, words, seen, whole, files):
    """Whether an answer is one that a refused call may have, where the whole answer is that without one."""
    if seen.is_as(whole):
        return True
    if kind in ["short", "again"]:
        return False
    # the text on standard error was refused
    if kind == "io" and (seen.status, seen.out, seen.files) == (whole.status, whole.out, whole.files) and whole.err.startswith(seen.err):
        return True
    # what `dump` holds back is tried once more at its end, and may then come whole
    begins = whole.out.startswith(seen.out) and (seen.out != whole.out or not whole.out or words[0] == "dump")
    fits = begins if seen.status == 5 else seen.out == b""
    # `pack` stores first: where its line was refused, the image stays stored
    is_kept = seen.files == files or (words[0] == "pack" and seen.status == 5 and seen.files == whole.files)
    return fits and is_kept and seen.err.startswith(TEXTS.get(seen.status, b"\0"))


def given():
    """The files of each run."""
    files = dict(SOURCES, OLD=b"an image that was there")
    for source, image in [("SRC", "ONE"), ("THROWS", "IMG")]:
        files[image] = Answer(["compile", source, image], files).files[image]
    for name, example in [("V1", "one_frame.elf"), ("BOTH", "both_forms.elf"), ("DIFFERS", "both_forms_differ.elf"), ("LONG", "long_table.elf")]:
        files[name] = (TOP / "examples" / example).read_bytes()
    files["CUT"] = files["V1"][:303]
    return files


def swept(shim, words, files, odd):
    whole = Answer(words, files)
    for kind in KINDS:
        ended = collections.Counter()
        for number in range(1, MOST):
            seen = Answer(words, files, shim, f"{kind}:{number}")
            if not seen.is_reached:
                break
            ended[seen.status] += 1
            if not is_fit(kind, words, seen, whole, files):
                odd.append(f"{' '.join(words)}, {kind} {number}: {seen.told()}")
        counts = ", ".join(f"{count} ended with {status}" for status, count in sorted(ended.items()))
        print(f"{' '.join(words)[:34]:36}{kind:7}{sum(ended.values()):6}  {counts}", flush=True)


def main():
    if subprocess.run([TOP / "ehc", "run", TOP / "examples/smallest.cc"], stdout=subprocess.DEVNULL).returncode:
        sys.exit("ehc could not be built")
    odd, asked = [], sys.argv[1:]
    with tempfile.TemporaryDirectory() as folder:
        shim = pathlib.Path(folder) / "refusals.so"
        run(["cc", "-O2", "-shared", "-fPIC", "-w", "-o", shim, pathlib.Path(__file__).parent / "refusals.c", "-ldl"])
        files = given()
        print(f"{'command':36}{'calls':7}{'refused':>6}")
        for words in COMMANDS:
            if not asked or words[0] in asked:
                swept(shim, words, files, odd)
    for line in odd:
        print(line)
    print(f"{len(odd)} answers are not as they should be")
    sys.exit(1 if odd else 0)


if __name__ == "__main__":
    main()
