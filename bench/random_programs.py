#!/usr/bin/env python3
"""Random programs, run in each way that `ehc` has: `random_programs.py [COUNT [SEED]]`, 1,000 programs from seed 1 without them.

A program has classes that tell of their destruction, functions with many int variables, loops, throws of ints, of objects and again, handlers, exception
specifications and modules of foreign code, and means something for every turn. `mean` with `--trace` is held against `run`, and against `exec` of the image
that `compile` stores, which has to be clean; of every tenth program the runs with each budget up to the end, or with 300 of them, are fronts of the whole run.
"""
import concurrent.futures
import os
import pathlib
import random
import re
import subprocess
import sys
import tempfile
import time

from building import program

EHC = program()
MODULES = ["--foreign=v3*2,r7,v1*9", "--foreign=r5,v2*9"]


class Writer:
    """Writes a random program. All ints stay between -999 and 999, so that no sum leaves its range."""

    def __init__(self, chance):
        self.chance, self.depth, self.names, self.handled = chance, 0, [], False

    def value(self, depth=0):
        pick = self.chance.randrange(6)
        if depth > 2 or pick < 2:
            return str(self.chance.randrange(1000))
        if pick < 4 and self.names:
            return self.chance.choice(self.names)
        left, right = self.value(depth + 1), self.value(depth + 1)
        op = self.chance.choice(["+", "-", "<", "==", "!=", "&&", "||", ">="])
        return f"({left} {op} {right}) % 1000"

    def statement(self, called, in_loop):
        self.depth += 1
        kinds = ["set", "set", "write", "local", "call", "throw", "object"]
        if self.depth < 4:
            kinds += ["if", "while", "try", "try", "block"]
        if in_loop:
            kinds += ["jump"]
        if self.handled:
            kinds += ["again"]
        text = getattr(self, self.chance.choice(kinds))(called, in_loop)
        self.depth -= 1
        return text

    def statements(self, called, in_loop, most=4):
        names = list(self.names)
        text = " ".join(self.statement(called, in_loop) for _ in range(self.chance.randrange(1, most + 1)))
        self.names = names
        return text

    def set(self, called, in_loop):
        return f"{self.chance.choice(self.names)} = {self.value()};" if self.names else f"write_int({self.value()});"

    def write(self, called, in_loop):
        return f"write_int({self.value()});"

    def local(self, called, in_loop):
        name = f"v{self.chance.randrange(10**6)}"
        text = f"int {name} = {self.value()};"
        self.names.append(name)
        return text

    def object(self, called, in_loop):
        return f"{self.chance.choice('AB')} o{self.chance.randrange(10**6)}({self.value()});"

    def call(self, called, in_loop):
        if self.chance.randrange(5) == 0:
            return f"write_int(__module({self.chance.randrange(3)}, {self.value()}));"
        return f"write_int(f{self.chance.randrange(called)}({self.value()}));" if called else self.write(called, in_loop)

    def throw(self, called, in_loop):
        what = self.chance.choice([self.value(), f"A({self.value()})", f"B({self.value()})"])
        return f"if ({self.value()}) throw {what};"

    def again(self, called, in_loop):
        return f"if ({self.value()}) throw;"

    def jump(self, called, in_loop):
        return f"if ({self.value()}) {self.chance.choice(['break', 'continue'])};"

    def block(self, called, in_loop):
        return f"{{ {self.statements(called, in_loop)} }}"

    def branch(self, called, in_loop):
        other = f" else {{ {self.statements(called, in_loop, 2)} }}" if self.chance.randrange(2) else ""
        return f"if ({self.value()}) {{ {self.statements(called, in_loop, 3)} }}{other}"

    def loop(self, called, in_loop):
        name = f"i{self.chance.randrange(10**6)}"
        return f"int {name} = 0; while ({name} < {self.chance.randrange(1, 4)}) {{ {name} = {name} + 1; {self.statements(called, True, 3)} }}"

    def handlers(self, called, in_loop):
        kinds = self.chance.sample(["int e", "A& e", "B& e", "A e", "int", "const A&"], self.chance.randrange(1, 3)) + ["..."] * self.chance.randrange(2)
        before, self.handled = self.handled, True
        text = " ".join(f"catch ({kind}) {{ {self.shows(kind)}{self.statements(called, in_loop, 2)} }}" for kind in kinds)
        self.handled = before
        return text

    def shows(self, kind):
        return {"int e": "write_int(e); ", "A& e": "write_int(e.n); ", "B& e": "write_int(e.n); ", "A e": "write_int(e.n); "}.get(kind, "")

    def guarded(self, called, in_loop):
        return f"try {{ {self.statements(called, in_loop)} }} {self.handlers(called, in_loop)}"

    def function(self, number):
        self.names, self.handled = ["a"], False
        allowed = self.chance.choice(["", "", "", " throw(int)", " throw(A, int)", " throw()"])
        locals_ = [f"x{i}" for i in range(self.chance.randrange(14))]
        begin = " ".join(f"int {name} = {self.value()};" for name in locals_)
        self.names += locals_
        return f"int f{number}(int a){allowed} {{ {begin} {self.statements(number, False, 6)} return {self.value()}; }}"

    def program(self):
        classes = "struct A { int n; A(int k) { n = k % 1000; } ~A() { write_int(n); } }; struct B : A { int m; B(int k) : A(k) { m = k % 7; } ~B() { write_int(m); } };"
        count = self.chance.randrange(1, 5)
        functions = " ".join(self.function(number) for number in range(count))
        self.names, self.handled = [], False
        return f"{classes} {functions} int main() {{ {self.guarded(count, False)} {self.statements(count, False)} return {self.chance.randrange(256)}; }}"


# words of the language that no method may be named by
setattr(Writer, "if", Writer.branch)
setattr(Writer, "while", Writer.loop)
setattr(Writer, "try", Writer.guarded)


def ran(*words):
    done = subprocess.run([EHC, *map(str, words)], capture_output=True, text=True, timeout=60)
    return done.returncode, done.stdout, done.stderr


def is_front(short, whole):
    """Whether what a run shows that its budget cut short is a front of the whole."""
    cut = re.sub(r"= budget\n\Z", "", short)
    return short == whole or cut != short and whole.startswith(cut)


def budgets(chance, image, whole):
    """What is wrong with the runs of some budgets, if anything is."""
    count = int(re.search(r"= count (\d+)", ran("exec", image, "--trace", "--count", *MODULES)[1])[1])
    asked = range(1, count + 2) if count < 300 else sorted({chance.randrange(1, count + 2) for _ in range(300)})
    return next((f"a budget of {it} shows no front" for it in asked if not is_front(ran("exec", image, "--trace", f"--max={it}", *MODULES)[1], whole)), None)


def judged(number, seed, room):
    """What is wrong with a program, if anything is, and whether it was refused."""
    chance = random.Random(f"{seed} {number}")
    source, image = room / f"{number}.cc", room / f"{number}.elf"
    source.write_text(Writer(chance).program())
    meant = ran("mean", source, "--trace", *MODULES)
    if meant[0] == 2:
        return None, True
    wrong = None
    if meant[0] in (0, 10):
        stored = ran("compile", source, image), ran("check", image)
        if stored[0] != (0, "", "") or stored[1][0] != 0:
            wrong = "is not stored as a clean image"
        elif ran("run", source, "--trace", *MODULES) != meant:
            wrong = "runs otherwise than it means"
        elif ran("exec", image, "--trace", *MODULES) != meant:
            wrong = "runs otherwise by exec"
        elif number % 10 == 0:
            wrong = budgets(chance, image, meant[1])
    elif meant[0] not in (11, 12, 14):
        wrong = f"answers {meant[0]}: {meant[2]}"
    if wrong is None:
        source.unlink()
    image.unlink(missing_ok=True)
    return wrong and f"program {number} of seed {seed} {wrong}: {Writer(random.Random(f'{seed} {number}')).program()}", False


def main():
    count = int(sys.argv[1]) if len(sys.argv) > 1 else 1000
    seed = int(sys.argv[2]) if len(sys.argv) > 2 else 1
    begun, refused, wrong = time.monotonic(), 0, []
    with tempfile.TemporaryDirectory() as room, concurrent.futures.ThreadPoolExecutor(os.cpu_count()) as pool:
        for found, was_refused in pool.map(lambda number: judged(number, seed, pathlib.Path(room)), range(count)):
            refused += was_refused
            wrong += [found] if found else []
    print("\n".join(wrong[:10]))
    print(f"{count} programs of seed {seed}: {refused} refused as no programs; {len(wrong)} that differ; {time.monotonic() - begun:.0f} s")
    return bool(wrong)


sys.exit(main())
