#!/usr/bin/env python3
"""Measures what `ehc compile` takes on a chain of functions that throw and catch, and how many steps its code takes for a turn.

Usage: bench/compiling.py, at the top of the repository. First a line for each length of the chain: the processor time of a
whole compile, the size of the image, how the time grows, and what `g++ -O0 -c` takes for the same source, both without what
they take for an empty main; and the time that `ehc exec` takes to run it. Then a line for each of three loops: the steps,
which are instructions and runtime calls, for each turn, which is a test of a loop, or a call of a function, a constructor or a
destructor; and the instructions that the same source takes for a turn where `riscv64-linux-gnu-g++ -O0` compiles it and
`qemu-riscv64-static` runs it, if both are installed. These are counts, which no other work changes.
"""
import os
import pathlib
import shutil
import subprocess
import sys
import tempfile

from building import program

TOP = pathlib.Path(__file__).resolve().parent.parent
EHC = program()
RUNS = 5
LENGTHS = [250, 500, 1000, 2000]
ROUNDS = 10_000
# What is subtracted: a run of fewer rounds, so that the beginning and the end of a program count for nothing.
FEWER, MORE = 20, 40
CROSS, EMULATOR = "riscv64-linux-gnu-g++", "qemu-riscv64-static"

OBJECT = "struct A { int n; A(int k) { n = k; } ~A() { write_int(n); } };\n"
QUIET = "struct A { int n; A(int k) { n = k; } ~A() { n = 0; } };\n"
PEER = "extern void write_int(int);\n"
EMPTY = "int main() { return 0; }\n"

# Each loop, of so many rounds, with the turns of a round.
LOOPS = {
    "calls": ("int f(int n) { return n + 1; }\nint main() { int i = 0; while (i < %d) { i = f(i); } return 0; }\n", 2),
    "objects": (QUIET + "int main() { int i = 0; while (i < %d) { A a(i); A b(i); i = a.n + 1; } return 0; }\n", 5),
    "throws": ("int main() { int i = 0; while (i < %d) { try { throw i; } catch (int e) { i = e + 1; } } return 0; }\n", 1),
}


def chain(length):
    """A source of 31 tokens for each function and 73 more; it prints length + 2 lines."""
    links = "".join(f"void f{i}() {{ A a({i}); try {{ f{i - 1}(); }} catch (int e) {{ throw e + 1; }} }}\n" for i in range(1, length + 1))
    return f"{OBJECT}void f0() {{ A a(0); throw 0; }}\n{links}int main() {{ try {{ f{length}(); }} catch (int e) {{ write_int(e); }} return 0; }}\n"


def measured(command, status=0):
    """The least processor time of some runs, in milliseconds, the greatest resident memory, in MiB, and what the last one printed."""
    times, most = [], 0
    for _ in range(RUNS):
        with tempfile.TemporaryFile() as out:
            child = subprocess.Popen([str(word) for word in command], stdout=out, stderr=subprocess.DEVNULL)
            _, ended, used = os.wait4(child.pid, 0)
            child.returncode = os.waitstatus_to_exitcode(ended)
            assert child.returncode == status, command
            out.seek(0)
            printed = out.read().decode()
        times.append((used.ru_utime + used.ru_stime) * 1e3)
        most = max(most, used.ru_maxrss / 1024)
    return min(times), most, printed


def least(command):
    """The least processor time of some runs, in milliseconds, and what the last one printed."""
    time, _, printed = measured(command)
    return time, printed


def compiled(folder, text):
    source, image = folder / "source.cc", folder / "image.elf"
    source.write_text(text)
    return least([EHC, "compile", source, image])[0], image


def peer(folder, text):
    source = folder / "peer.cc"
    source.write_text(PEER + text)
    return least(["g++", "-O0", "-w", "-c", "-o", folder / "peer.o", source])[0]


def cross_steps(folder, text):
    """The instructions of a whole run of what the cross-compiler makes of a source: a line of the emulator's log for each."""
    source, program, log = folder / "cross.cc", folder / "cross", folder / "log"
    source.write_text(text)
    subprocess.run([CROSS, "-O0", "-w", "-static", "-march=rv64gc", "-o", program, source], check=True)
    subprocess.run([EMULATOR, "-singlestep", "-d", "nochain,exec", "-D", log, program], check=True)
    with log.open() as lines:
        return sum(line.startswith("Trace") for line in lines)


def cross_steps_a_turn(folder, source, turns_of_round):
    if not (shutil.which(CROSS) and shutil.which(EMULATOR)):
        return f"{'':12}"
    more, fewer = (cross_steps(folder, source % rounds) for rounds in (MORE, FEWER))
    return f"{(more - fewer) / (MORE - FEWER) / turns_of_round:12.1f}"


def main():
    if subprocess.run([TOP / "ehc", "run", TOP / "examples/smallest.cc"], stdout=subprocess.DEVNULL).returncode:
        sys.exit("ehc could not be built")
    with tempfile.TemporaryDirectory() as folder:
        folder = pathlib.Path(folder)
        start, peer_start = compiled(folder, EMPTY)[0], peer(folder, EMPTY)
        print(f"{'functions':>9}{'tokens':>8}{'image kB':>10}{'ms':>8}{'growth':>8}{'g++ ms':>9}{'ratio':>8}{'exec ms':>9}")
        before = 0
        for length in LENGTHS:
            whole, image = compiled(folder, chain(length))
            taken, beside = whole - start, peer(folder, chain(length)) - peer_start
            ran, lines = least([EHC, "exec", image])
            assert lines.count("\n") == length + 3, lines[-100:]
            growth = f"{taken / before:8.2f}" if before else f"{'':8}"
            size = image.stat().st_size / 1000
            print(f"{length:9}{31 * length + 73:8}{size:10.0f}{taken:8.1f}{growth}{beside:9.0f}{taken / beside:8.3f}{ran:9.0f}", flush=True)
            before = taken
        print(f"\n{'loop':9}{'turns':>8}{'steps':>10}{'a turn':>8}{'g++ a turn':>12}")
        for name, (source, turns_of_round) in LOOPS.items():
            image = compiled(folder, source % ROUNDS)[1]
            printed = least([EHC, "exec", "--count", f"--max={2**40}", image])[1]
            steps, turns = int(printed.split()[-1]), ROUNDS * turns_of_round
            peers = cross_steps_a_turn(folder, source, turns_of_round)
            print(f"{name:9}{turns:8}{steps:10}{steps / turns:8.1f}{peers}")


if __name__ == "__main__":
    main()
