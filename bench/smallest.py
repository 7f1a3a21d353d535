#!/usr/bin/env python3
"""Times `ehc run` from start to end beside a C program that prints the same, and prints a small table.

Two sources: the smallest, and the longest main of its form, with 398 calls of write_int (1,999 tokens). Each command is run
several times, its output to a pipe that is read whole; the table has the median and the least of the times, and the
greatest resident memory. What it builds lies in a folder of its own.
"""
import pathlib
import statistics
import subprocess
import sys
import tempfile

from building import program

HERE = pathlib.Path(__file__).resolve().parent
TOP = HERE.parent
CALLS = 398


def c_program(calls, answer):
    """A C program that prints what the source prints, a line at a time, as unbuffered as `ehc` is."""
    return f"""
#include <stdio.h>
#include <unistd.h>
static void put(const char *front, int n) {{
    char line[64];
    int length = snprintf(line, sizeof line, "%s%d\\n", front, n);
    if (write(1, line, length) != length) _exit(5);
}}
int main(void) {{
    for (int i = 0; i < {calls}; i++) put("", 5);
    put("= exit ", {answer});
    return 0;
}}
"""


def source(calls, answer):
    return "int main() { " + "write_int(5); " * calls + f"return {answer}; }}\n"


def compiled(text, program):
    text = pathlib.Path(text)
    subprocess.run(["cc", "-O2", "-o", program, text], check=True)
    return program


def measured(launch, words, times):
    """The seconds of each run, the greatest resident memory of all in MiB, and what was printed."""
    seconds, most = [], 0.0
    for _ in range(times):
        done = subprocess.run([launch] + words, capture_output=True, check=True)
        took, memory = done.stderr.split()[-2:]
        seconds.append(float(took))
        most = max(most, int(memory) / 1024)
    return seconds, most, done.stdout


def main():
    built = subprocess.run([TOP / "ehc", "run", TOP / "examples/smallest.cc"], stdout=subprocess.DEVNULL)
    if built.returncode:
        sys.exit("ehc could not be built")
    ehc = program()
    print(f"{'source':16}{'program':10}{'median ms':>12}{'least ms':>12}{'peak MiB':>12}")
    with tempfile.TemporaryDirectory() as folder:
        folder = pathlib.Path(folder)
        launch = compiled(HERE / "launch.c", folder / "launch")
        for name, calls, answer, times in [("smallest", 1, 3, 40), (f"{CALLS} calls", CALLS, 0, 10)]:
            (folder / "peer.c").write_text(c_program(calls, answer))
            peer = compiled(folder / "peer.c", folder / "peer")
            (folder / "source.cc").write_text(source(calls, answer))
            outs = []
            for program, words in [("C", [peer]), ("ehc run", [ehc, "run", folder / "source.cc"])]:
                seconds, most, out = measured(launch, words, times)
                outs.append(out)
                median, least = 1000 * statistics.median(seconds), 1000 * min(seconds)
                print(f"{name:16}{program:10}{median:12.2f}{least:12.2f}{most:12.1f}")
            if outs[0] != outs[1]:
                sys.exit("the two print different lines")


main()
