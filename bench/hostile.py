#!/usr/bin/env python3
"""Times `ehc` on the worst files of each kind that its limits allow, and shows how the time grows with the size of the file.

Each kind is made at 4, 8 KiB .. 4 MiB, sources up to their 1 MiB, as long as a run takes less than 5 s of processor time; a run that has taken
20 s, or 4 GiB, is ended. The table has the size, the status, the processor time, its growth from half that size (twice is linear, four times is
not), and the greatest resident memory. `bench/hostile.py [KIND..]` measures some kinds alone. What is made lies in a folder of its own.
"""
import pathlib
import resource
import subprocess
import sys
import tempfile

from building import TOP, program, run
from worst_files import IMAGES, SOURCES

EHC = program()
LEAST, MOST, MOST_OF_SOURCE = 1 << 12, 1 << 22, 1 << 20
LONG, SECONDS, MEMORY = 5.0, 20, 4 << 30


def bounded():
    resource.setrlimit(resource.RLIMIT_CPU, (SECONDS, SECONDS + 1))
    resource.setrlimit(resource.RLIMIT_AS, (MEMORY, MEMORY))


def measured(launch, words):
    """Status, processor seconds and greatest resident memory in MiB of one run."""
    before = resource.getrusage(resource.RUSAGE_CHILDREN)
    done = subprocess.run([launch, EHC, *words], stdout=subprocess.DEVNULL, stderr=subprocess.PIPE, preexec_fn=bounded)
    after = resource.getrusage(resource.RUSAGE_CHILDREN)
    said = done.stderr.decode().splitlines()
    seconds = after.ru_utime + after.ru_stime - before.ru_utime - before.ru_stime
    status = "ended" if done.returncode == 126 else f"{done.returncode} {' '.join(said[:-1]).removeprefix('ehc: ')[:34]}"
    return status, seconds, int(said[-1].split()[1]) / 1024


def ladder(launch, folder, name, make, words, most):
    before, size, file = 0.0, LEAST, folder / "file"
    while size <= most:
        file.write_bytes(make(size))
        status, seconds, memory = measured(launch, [words[0], file, *words[1:]])
        growth = f"{seconds / before:8.2f}" if before > 0.004 else f"{'':8}"
        print(f"{name:18}{words[0]:9}{file.stat().st_size:9}{1000 * seconds:10.1f}{growth}{memory:9.1f}  {status}", flush=True)
        if seconds > LONG:
            return
        before, size = seconds, 2 * size


def main():
    if subprocess.run([TOP / "ehc", "run", TOP / "examples/smallest.cc"], stdout=subprocess.DEVNULL).returncode:
        sys.exit("ehc could not be built")
    kinds = [(make.__name__, make, [command], MOST) for make, commands in IMAGES for command in commands]
    kinds += [(make.__name__, make, ["compile", "/dev/null"], MOST_OF_SOURCE) for make in SOURCES]
    unknown = [name for name in sys.argv[1:] if name not in [kind[0] for kind in kinds]]
    if unknown:
        sys.exit(f"no kind is called {unknown[0]}")
    with tempfile.TemporaryDirectory() as folder:
        folder = pathlib.Path(folder)
        run(["cc", "-O2", "-o", folder / "launch", pathlib.Path(__file__).parent / "launch.c"])
        print(f"{'kind':18}{'command':9}{'bytes':>9}{'ms':>10}{'growth':>8}{'MiB':>9}  status")
        for kind in kinds:
            if len(sys.argv) == 1 or kind[0] in sys.argv[1:]:
                ladder(folder / "launch", folder, *kind)


if __name__ == "__main__":
    main()
