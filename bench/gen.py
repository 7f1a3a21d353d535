#!/usr/bin/env python3
"""Measures a whole `ehc gen`, which generates a chain of functions that throw and catch, compiles it and runs it.

Usage: bench/gen.py, at the top of the repository. It prints a line for each length of the chain: the functions, the tokens, the
processor time of `ehc gen`, how it grows, the greatest resident memory, and what `g++ -O0` takes to compile and link the same source
and the program to run. Both are whole, from start to end: what an empty program takes stands in the first line.
"""
import pathlib
import subprocess
import sys
import tempfile

from compiling import EHC, EMPTY, PEER, TOP, chain, measured

LENGTHS = [1, 250, 500, 1000, 2000]
WRITES = "#include <cstdio>\nvoid write_int(int n) { std::printf(\"%d\\n\", n); }\n"


def peer(folder, text):
    """What the compiler with its linker takes, and the program that it makes."""
    source, program = folder / "peer.cc", folder / "peer"
    source.write_text(PEER + text)
    built = measured(["g++", "-O0", "-w", "-o", program, source, folder / "writes.o"])[0]
    ran, _, printed = measured([program])
    return built + ran, printed


def main():
    if subprocess.run([TOP / "ehc", "gen", "1"], stdout=subprocess.DEVNULL).returncode:
        sys.exit("ehc could not be built")
    with tempfile.TemporaryDirectory() as folder:
        folder = pathlib.Path(folder)
        (folder / "writes.cc").write_text(WRITES)
        subprocess.run(["g++", "-O0", "-c", "-o", folder / "writes.o", folder / "writes.cc"], check=True)
        print(f"{'functions':>9}{'tokens':>8}{'ms':>8}{'growth':>8}{'MiB':>7}{'g++ ms':>9}{'ratio':>8}")
        (folder / "empty.cc").write_text(EMPTY)
        taken, resident, _ = measured([EHC, "run", folder / "empty.cc"])
        beside, _ = peer(folder, EMPTY)
        print(f"{'none':>9}{9:8}{taken:8.1f}{'':8}{resident:7.1f}{beside:9.0f}{taken / beside:8.3f}", flush=True)
        before = 0
        for length in LENGTHS:
            taken, resident, printed = measured([EHC, "gen", length])
            beside, lines = peer(folder, chain(length))
            tokens = 31 * length + 73
            assert printed == f"tokens {tokens}\nlines {length + 2}\nmakes {length + 1}\n= exit 0\n", printed
            assert lines.count("\n") == length + 2, lines[-100:]
            growth = f"{taken / before:8.2f}" if before and length > 250 else f"{'':8}"
            print(f"{length:9}{tokens:8}{taken:8.1f}{growth}{resident:7.1f}{beside:9.0f}{taken / beside:8.3f}", flush=True)
            before = taken


if __name__ == "__main__":
    main()
