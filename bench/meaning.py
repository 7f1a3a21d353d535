#!/usr/bin/env python3
"""Measures how many turns `ehc mean` takes in a second, how its time grows with the turns, and the memory that it takes.

Usage: bench/meaning.py, at the top of the repository. It prints a line for each loop and each number of turns: a loop of
calls, one that throws and catches through ten frames with an object in each, and one with two objects in its body. A turn
is a test of a loop, or a call of a function, a constructor or a destructor. Beside it runs the same program, compiled by
`g++ -O0`, for more rounds where it is too fast to be measured. What an empty main takes is subtracted. Processor time
counts, and the greatest resident memory.
"""
import os
import pathlib
import subprocess
import sys
import tempfile

from building import program

TOP = pathlib.Path(__file__).resolve().parent.parent
RUNS = 3
TURNS = [1_250_000, 2_500_000, 5_000_000, 10_000_000]

OBJECT = "struct A { int n; A(int k) { n = k; } ~A() { n = 0; } };\n"
EMPTY = "int main() { return 0; }\n"


def calls(rounds):
    return f"int f(int n) {{ return n + 1; }}\nint main() {{ int i = 0; while (i < {rounds}) {{ i = f(i); }} return 0; }}\n"


def throws(rounds):
    frames = "".join(f"void f{k}(int n) {{ A a(n); f{k - 1}(n); }}\n" for k in range(1, 10))
    return (
        f"{OBJECT}void f0(int n) {{ A a(n); throw n; }}\n{frames}"
        f"int main() {{ int i = 0; while (i < {rounds}) {{ try {{ f9(i); }} catch (int e) {{ i = e + 1; }} }} return 0; }}\n"
    )


def objects(rounds):
    return f"{OBJECT}int main() {{ int i = 0; while (i < {rounds}) {{ A a(i); A b(i); i = a.n + 1; }} return 0; }}\n"


# Each loop with the turns of a round, its test and the calls in its body, and how many times as many rounds its peer runs.
LOOPS = {"calls": (calls, 2, 20), "throws": (throws, 31, 1), "objects": (objects, 5, 20)}


def least(command, wanted):
    """The least processor time of some runs in seconds, and the greatest resident memory in MiB."""
    times, most = [], 0
    for _ in range(RUNS):
        with tempfile.TemporaryFile() as out:
            child = subprocess.Popen(command, stdout=out, stderr=subprocess.DEVNULL)
            _, status, used = os.wait4(child.pid, 0)
            child.returncode = os.waitstatus_to_exitcode(status)
            out.seek(0)
            assert (out.read(), child.returncode) == (wanted, 0), command
        times.append(used.ru_utime + used.ru_stime)
        most = max(most, used.ru_maxrss / 1024)
    return min(times), most


def meant(folder, text):
    source = folder / "source.cc"
    source.write_text(text)
    return least([program(), "mean", f"--max={2**40}", source], b"= exit 0\n")


def compiled(folder, text):
    source, program = folder / "peer.cc", folder / "peer"
    source.write_text(text)
    subprocess.run(["g++", "-O0", "-w", "-o", program, source], check=True)
    return least([program], b"")[0]


def main():
    if subprocess.run([TOP / "ehc", "run", TOP / "examples/smallest.cc"], stdout=subprocess.DEVNULL).returncode:
        sys.exit("ehc could not be built")
    print(f"{'loop':10}{'turns':>11}{'ms':>8}{'M/s':>8}{'growth':>8}{'peak MiB':>10}{'g++ -O0 M/s':>13}")
    with tempfile.TemporaryDirectory() as folder:
        folder = pathlib.Path(folder)
        start, peer_start = meant(folder, EMPTY)[0], compiled(folder, EMPTY)
        for name, (source, turns_of_round, more) in LOOPS.items():
            rounds = TURNS[-1] // turns_of_round * more
            peer = rounds * turns_of_round / (compiled(folder, source(rounds)) - peer_start) / 1e6
            before = 0
            for turns in TURNS:
                whole, most = meant(folder, source(turns // turns_of_round))
                seconds = whole - start
                growth = f"{seconds / before:8.2f}" if before else f"{'':8}"
                print(f"{name:10}{turns:11}{seconds * 1e3:8.0f}{turns / seconds / 1e6:8.2f}{growth}{most:10.0f}{peer:13.1f}", flush=True)
                before = seconds


main()
