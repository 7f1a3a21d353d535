#!/usr/bin/env python3
"""The same programs by other compilers under `ehc exec`: `other_compilers.py [COUNT [SEED]]`, 500 generated programs from seed 1 on without them.

Each source is compiled for RISC-V by g++ at -O0, -O1 and -O2 and by clang at -O0 and -O2, as far as they are here. It is linked with the kit of
examples/other_compiler and run by `exec --trace`, and so is the image that `pack` makes of it. Beside it stand `ehc run` and `ehc mean`, and, without the events,
what the g++ of this machine makes of it at -O0 and -O2 over its own library. All lines and the end are held against what `mean` prints.

The sources are our examples that are in both languages, the kit's cases in ehc's language, the worked programs of crates/transcripts, and generated programs
(throwing_programs.py). Where a case says that a compiler does otherwise, it has to. A generated program whose functions have several lists and that differs, but not
with -fno-inline, does what the case inlined_lists shows; one that differs by g++, but not with -fno-tree-tail-merge, what merged_handlers does. Both are counted. Any
other difference is printed, its source is kept in a folder that is named, and the script's status is 1.
"""
import collections
import concurrent.futures
import dataclasses
import importlib.machinery
import importlib.util
import os
import pathlib
import re
import shutil
import subprocess
import sys
import tempfile
import time

from building import TOP, program

sys.path.insert(0, str(TOP / "examples/other_compiler"))

from cases import cases
from kit import Failed, HERE, installed
from throwing_programs import KINDS, MODULES, program as generated

EHC = program()
LEVELS = {"g++": ["-O0", "-O1", "-O2"], "clang": ["-O0", "-O2"], "host": ["-O0", "-O2"]}
# Our examples but for those that do not end by an exit or by terminate, or want several harts; how they are run, and which case has what a compiler does otherwise.
EXAMPLES = {
    "smallest": [], "lines": [], "caught": [], "unwinding": [], "rethrow": [], "throwing_destructor": [], "specification": [], "terminate": [],
    "foreign": ["--foreign=r7,v5"], "input": [f"--in={TOP}/examples/numbers.txt"], "cancel": [], "noexcept": ["--std=11"],
}
SAME_AS = {"cancel": "cancel_catch_all", "noexcept": "noexcept"}
# g++ does not unwind a noexcept function, as the case of that name shows; ./test holds the worked programs against this machine's own.
ONLY = {"noexcept": ["clang"], "worked": ["g++", "clang"]}
# Worked programs in which a compiler does otherwise, by their standard and a part of their text, and the cases that show why.
WORKED_AS = {
    ("03", "A a(1); try { A b(2); __cancel(4); } catch (...) { write_int(9); }"): ["cancel_catch_all"],
    ("03", "void f() throw() { A x(1); __cancel(6); }"): ["cancel_empty_list"],
    ("03", "struct X { ~X() { __cancel(5); } };"): ["cancel_barrier"],
    ("03", "~T() { A x(9); throw 8; } }; int main() { try { T t; throw 7; }"): ["dropped_handler", "throwing_cleanup"],
    ("03", "X(const X& o) { throw 1; } }; int main() { try { X x; throw x; }"): ["copy_throws"],
    ("03", "~T() { throw 1; } }; int main() { try { T t; return 5; }"): ["left_return"],
    ("11", "~T() { A x(9); throw 8; } }; int main() { try { T t; throw 7; }"): ["noexcept"],
    ("11", "void f() noexcept { A x(1); throw 2; }"): ["noexcept"],
    ("11", "void f() noexcept { A x(1); __cancel(4); }"): ["cancel_noexcept"],
    ("11", "struct B { ~B() throw() { } }; struct D { B b; ~D() { throw 3; } };"): ["implicit_list"],
}


@dataclasses.dataclass
class Asked:
    """A source, its options, and with which compilers it is said to do otherwise or is not compiled."""

    kind: str
    source: pathlib.Path
    std: str
    options: list
    cases: list = ()

    def differs(self, compiler, level):
        return any(case.names(it, compiler, level) for case in self.cases for it in ("otherwise", "events"))

    def is_for(self, compiler, level):
        return compiler in ONLY.get(self.kind, [compiler]) and all(it.is_for(compiler, level) for it in self.cases)


def said(words, **how):
    done = subprocess.run([str(it) for it in words], capture_output=True, text=True, timeout=120, **how)
    return done.stdout + done.stderr


def without_events(lines):
    return re.sub(r"^! .*\n", "", lines, flags=re.M)


class Host:
    """The g++ of this machine with its own library."""

    name = "host"

    def __init__(self, room):
        self.calls = room / "host.o"
        said(["g++", "-O1", "-c", HERE / "host.cpp", "-o", self.calls])

    def ran(self, asked, level, out, *more):
        source = ["-DEHC_HOST", "-include", HERE / "ehc.h", "-x", "c++", asked.source, "-x", "none"]
        built = said(["g++", level, f"-std=c++{asked.std}", "-w", "-fno-builtin", *more, *source, self.calls, "-o", out])
        given = next((it.removeprefix("--in=") for it in asked.options if it.startswith("--in=")), os.devnull)
        modules = " ".join(it.removeprefix("--foreign=") for it in asked.options if it.startswith("--foreign="))
        with open(given) as given:
            found = built or said([out], stdin=given, env={"EHC_FOREIGN": re.sub(r"([vr]\d+)\*(\d+)", lambda it: ",".join([it[1]] * int(it[2])), modules)})
        return re.sub(r"^terminate called.*\n|^  what.*\n", "", found, flags=re.M)


class Cross:
    """A compiler for RISC-V with the kit, under `exec`."""

    def __init__(self, compiler, room):
        self.name, self.compiler = compiler.name, compiler
        (room / self.name).mkdir()
        self.kit = compiler.kit(room / self.name)

    def ran(self, asked, level, out, *more):
        try:
            objects = self.compiler.objects([asked.source], [level, f"-std=c++{asked.std}", "-w", *more], out.parent, f"{out.name}-")
            self.compiler.link([*self.kit, *objects], out)
        except Failed as failed:
            return str(failed)
        options = [it for it in asked.options if not it.startswith("--std=")]
        packed = out.with_name(f"{out.name}-packed")
        judged, is_packed = said([EHC, "check", out]), said([EHC, "pack", out, packed])
        found, again = (said([EHC, "exec", "--trace", it, *options]) for it in (out, packed))
        if not judged.startswith("clean: ") or not is_packed.startswith("packed "):
            return judged + is_packed
        return found if found == again else f"the packed image runs otherwise\n{again}"


def has_several_lists(image):
    tables = [re.findall(r"^  list ", it, re.M) for it in said([EHC, "dump", image]).split("\nframe ")]
    return any(len(it) > 1 for it in tables)


def reason(compiler, asked, level, out, wanted):
    """Why a generated program does otherwise, where it does not with the option that leaves that out."""
    if compiler.name != "host" and has_several_lists(out) and compiler.ran(asked, level, out, "-fno-inline") == wanted:
        return "lists"
    if compiler.name != "clang" and compiler.ran(asked, level, out, "-fno-tree-tail-merge") == wanted:
        return "merged"
    return None


def answers(asked, compilers, room):
    """What `mean` prints, what `run` and the program of each compiler and level do, and why some do otherwise."""
    meant = said([EHC, "mean", "--trace", asked.source, *asked.options])
    found, reasons = {("ehc", "run"): said([EHC, "run", "--trace", asked.source, *asked.options])}, {}
    if re.search(r"^= (exit|aborted)", meant, re.M):
        for compiler in compilers:
            for level in LEVELS[compiler.name]:
                if asked.is_for(compiler.name, level):
                    out = room / f"{asked.kind}-{asked.source.stem}-{compiler.name}{level}"
                    lines = found[compiler.name, level] = compiler.ran(asked, level, out)
                    wanted = without_events(meant) if compiler.name == "host" else meant
                    if asked.kind in KINDS and lines != wanted:
                        reasons[compiler.name, level] = reason(compiler, asked, level, out, wanted)
                    for it in [out, *room.glob(f"{out.name}-*")]:
                        it.unlink(missing_ok=True)
    return meant, found, reasons


class Tally:
    def __init__(self, kept):
        self.kept, self.rows, self.wrong = kept, collections.defaultdict(collections.Counter), []

    def add(self, asked, meant, found, reasons):
        row = self.rows[asked.kind]
        row["programs"] += 1
        row["lines"] += without_events(meant).count("\n")
        row["makes"] += len(re.findall(r"^! (make|foreign)", meant, re.M))
        row["handled"] += len(re.findall(r"^! enter", meant, re.M))
        end = re.search(r"^(= \w+|ehc: \w+ refused)", meant, re.M)
        row[end[1] if end else "no end"] += 1
        for (compiler, level), lines in found.items():
            row["outputs"] += 1
            wanted = without_events(meant) if compiler == "host" else meant
            is_same = lines == wanted
            if not is_same and asked.differs(compiler, level):
                row["said"] += 1
            elif reasons.get((compiler, level)):
                row[reasons[compiler, level]] += 1
            elif is_same == asked.differs(compiler, level):
                self.tell(asked, f"{compiler} {level}", wanted, lines)

    def tell(self, asked, who, meant, lines):
        self.rows[asked.kind]["differ"] += 1
        self.kept.mkdir(parents=True, exist_ok=True)
        shutil.copy(asked.source, self.kept / f"{asked.kind}-{asked.source.name}")
        meant, lines = meant.splitlines(), lines.splitlines()
        at = next((n for n, (a, b) in enumerate(zip(meant, lines)) if a != b), min(len(meant), len(lines)))
        self.wrong.append(f"{asked.kind} {asked.source.stem}: {who}, from line {at + 1}: {lines[at : at + 3]} and not {meant[at : at + 3]}")

    def show(self, seconds):
        heads = {"programs": 9, "exit": 6, "aborted": 8, "other": 6, "lines": 8, "thrown": 8, "entered": 8, "outputs": 9, "as said": 8, "lists": 6, "merged": 7, "differ": 7}
        print(f"{'kind':12}" + "".join(f"{head:>{wide}}" for head, wide in heads.items()))
        for kind, row in self.rows.items():
            other = row["programs"] - row["= exit"] - row["= aborted"]
            print(f"{kind:12}{row['programs']:9}{row['= exit']:6}{row['= aborted']:8}{other:6}{row['lines']:8}{row['makes']:8}{row['handled']:8}"
                  f"{row['outputs']:9}{row['said']:8}{row['lists']:6}{row['merged']:7}{row['differ']:7}")
        print(f"{seconds:.0f} s")
        print("\n".join(self.wrong[:40]), end="\n" if self.wrong else "")
        if self.wrong:
            print(f"the sources that differ are in {self.kept}")


def worked(room, known):
    """The worked programs that end by themselves, and not by a budget, as ./test reads them."""
    loader = importlib.machinery.SourceFileLoader("worked_programs", str(TOP / "test"))
    of_test = importlib.util.module_from_spec(importlib.util.spec_from_loader("worked_programs", loader))
    loader.exec_module(of_test)
    found = [it for it in of_test.programs() if it.ends and not any(word.startswith("--max") for word in it.options)]
    left = dict(WORKED_AS)
    for it in found:
        source, options = it.files(room)
        std = "11" if "--std=11" in options else "03"
        key = next((key for key in WORKED_AS if key[0] == std and key[1] in it.source), None)
        left.pop(key, None)
        names = WORKED_AS.get(key, [])
        yield Asked("worked", source, std, [word for word in options if word not in ("--trace", "--std=03")], [known[name] for name in names])
    assert not left, f"no worked program has {left}"


def written(room, count, seed):
    """What is asked: examples, cases, and generated programs of each kind in turn."""
    known = {it.name: it for it in cases()}
    for name, options in EXAMPLES.items():
        std = "11" if "--std=11" in options else "03"
        yield Asked("examples", TOP / f"examples/{name}.cc", std, options, [known[SAME_AS[name]]] if name in SAME_AS else [])
    for it in known.values():
        if it.is_common:
            yield Asked("cases", it.source, it.std, [*it.options, f"--std={it.std}"], [it])
    yield from worked(room, known)
    for number in range(count):
        kind = KINDS[number % len(KINDS)]
        source = room / f"{seed + number // len(KINDS)}.{kind}.cc"
        source.write_text(generated(kind, seed + number // len(KINDS)))
        std = "11" if kind == "noexcept" else "03"
        yield Asked(kind, source, std, [*MODULES, f"--std={std}"])


def main():
    count = int(sys.argv[1]) if len(sys.argv) > 1 else 500
    seed = int(sys.argv[2]) if len(sys.argv) > 2 else 1
    begun, tally = time.monotonic(), Tally(TOP / "out/other_compilers")
    with tempfile.TemporaryDirectory() as room, concurrent.futures.ThreadPoolExecutor(os.cpu_count()) as pool:
        room = pathlib.Path(room)
        compilers = [Cross(it, room) for it in installed()] + ([Host(room)] if shutil.which("g++") else [])
        print(f"beside ehc: {', '.join(it.name for it in compilers) or 'no other compiler'}", flush=True)
        asked = list(written(room, count, seed))
        for it, found in zip(asked, pool.map(lambda it: answers(it, compilers, room), asked)):
            tally.add(it, *found)
    tally.show(time.monotonic() - begun)
    return bool(tally.wrong)


if __name__ == "__main__":
    sys.exit(main())
