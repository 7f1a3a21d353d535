#!/usr/bin/env python3
"""Times `ehc pack` beside `ehc check` of the same image, and shows how many bytes it saves.

Usage: bench/packing.py, at the top of the repository. The images are the large RISC-V programs of images.py, where what builds
them is here, and chains of functions that throw and catch, by `ehc compile`. Each command runs several times from start to end;
the least time counts. A line for each image: its size, its functions, the times, how many times `check` that is, and what `pack`
printed. What is built and stored lies in a folder of its own.
"""
import pathlib
import shutil
import subprocess
import sys
import tempfile

from compiling import EHC, TOP, chain
from images import CROSS, SIZES, build, least_seconds

LENGTHS = [500, 2_000]


def compiled(folder, length):
    """The image of a chain of so many functions."""
    source, image = folder / "chain.cc", folder / "chain"
    source.write_text(chain(length))
    subprocess.run([EHC, "compile", source, image], check=True)
    return image


def measure(folder, name, functions, image):
    checked = least_seconds([EHC, "check", image])[0]
    seconds, printed = least_seconds([EHC, "pack", image, folder / "packed"])
    size = image.stat().st_size / 1e6
    print(f"{name:14}{size:6.2f} MB{functions:>10}{1000 * checked:10.1f}{1000 * seconds:10.1f}{seconds / checked:8.2f}  {printed.decode().strip()}")


def main():
    built = subprocess.run([TOP / "ehc", "run", TOP / "examples/smallest.cc"], stdout=subprocess.DEVNULL)
    if built.returncode:
        sys.exit("ehc could not be built")
    print(f"{'':14}{'image':>9}{'functions':>10}{'check, ms':>10}{'pack, ms':>10}{'times':>8}")
    with tempfile.TemporaryDirectory() as folder:
        folder = pathlib.Path(folder)
        if shutil.which(CROSS + "g++") or (shutil.which("clang++") and shutil.which("ld.lld")):
            for functions in SIZES:
                measure(folder, "C++ compiler", functions, build(folder, functions)[0])
        for length in LENGTHS:
            measure(folder, "ehc compile", length, compiled(folder, length))


if __name__ == "__main__":
    main()
