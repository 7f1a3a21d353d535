#!/usr/bin/env python3
"""Measures the turns that `ehc harts` takes in a second of processor time, with one hart and with eight, beside the steps of `ehc exec`.

Usage: bench/harts.py, at the top of the repository. A loop of calls never ends, so each run takes all of its turns: first in one line of the schedule
for each hart, then in lines of 1,000 turns and of one turn. What the same command takes for one turn is taken off. The last column is the time for
these turns beside that for half of them.
"""
import pathlib
import subprocess
import sys
import tempfile

from compiling import EHC, TOP, measured

SOURCE = "int f(int n) { return n + 1; }\nint main() { int i = 0; while (1) { i = f(i); if (i > 1000) i = 0; } return 0; }\n"
# How many turns a line of the schedule has, and how many there are of them: a schedule has room for no more lines.
TURNS, LINES, BUDGET = [None, 1000, 1], 130_000, 11


def schedule(harts, turns, line):
    """Lines of so many turns each, for one hart after the other, that make up as many turns."""
    if line is None:
        return "".join(f"{hart} {turns // harts}\n" for hart in range(harts))
    return "".join(f"{at % harts} {line}\n" for at in range(turns // line))


def main():
    if subprocess.run([TOP / "ehc", "gen", "1"], stdout=subprocess.DEVNULL).returncode:
        sys.exit("ehc could not be built")
    with tempfile.TemporaryDirectory() as folder:
        folder = pathlib.Path(folder)
        source, image, text, empty = folder / "loop.cc", folder / "loop.elf", folder / "schedule", folder / "empty"
        source.write_text(SOURCE)
        empty.write_text("")
        subprocess.run([EHC, "compile", source, image], check=True)

        def steps(turns):
            return measured([EHC, "exec", image, f"--max={turns}"], BUDGET)[0]

        def turns_of(harts, turns, line):
            text.write_text(schedule(harts, turns, line))
            return measured([EHC, "harts", image, text, *[f"--in={empty}"] * harts])[0]

        print(f"{'harts':>6}{'a line':>8}{'turns':>12}{'turns/s':>12}{'of exec':>9}{'growth':>8}")
        for line in TURNS:
            turns = 40_000_000 if line is None else LINES * line
            alone = steps(turns) - steps(1)
            print(f"{'exec':>6}{'':8}{turns:12}{turns / alone * 1e3:12.0f}{1:9.2f}{alone / (steps(turns // 2) - steps(1)):8.2f}", flush=True)
            for harts in (1, 8):
                before = turns_of(harts, harts, None)
                taken, half = turns_of(harts, turns, line) - before, turns_of(harts, turns // 2, line) - before
                print(f"{harts:6}{line or 'all':>8}{turns:12}{turns / taken * 1e3:12.0f}{alone / taken:9.2f}{taken / half:8.2f}", flush=True)


if __name__ == "__main__":
    main()
