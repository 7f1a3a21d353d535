#!/usr/bin/env python3
"""Measures how images are loaded and run, and prints two tables.

The first has instructions a second: the loops of `machine.py` in images that are loaded and run under a budget, beside
the C interpreter of that script. The second has loads a second of images with so many functions, each with an exception
table, and what a load takes more than that of the smallest. Processor time counts, and what a run or a load takes
besides is taken off.

Usage: bench/loading.py [PROGRAM]. A PROGRAM that an earlier run has built is taken as it is. What is built lies in a
folder of its own.
"""
import pathlib
import re
import struct
import sys
import tempfile

from assembling import START, elf, exception_table, frame_tables
from building import processor_seconds, rattle_program, run
from machine import INTERPRETER, LOOPS, words

FEW, MANY, RUNS = 1_000, 50_000_000, 3
FUNCTIONS, LOADS = [1, 1_000, 2_000, 4_000, 8_000], 21

NEEDS = ["anyhow", "eh_outer", "foreign_host", "eh_run"]

PROGRAM = """//! Loads the image in a file so many times, and runs it once for so many steps at most.
#![tactic(auto)]

use eh_outer::{MemSink, Once};
use eh_run::{load, run};
use foreign_host::Host;
use std::{env, fs};

fn main(rt: HostRuntime) -> anyhow::Result<()> {
    let alloc = rt.alloc();
    let mut words = env::args(&rt)?.skip(1);
    let (Some(path), Some(loads), Some(steps)) = (words.next(), words.next(), words.next()) else {
        return Ok(());
    };
    let loads: u32 = loads.as_str().parse().unwrap_or(1);
    let steps: u64 = steps.as_str().parse().unwrap_or(1);
    let image = fs::read(&rt, path.as_str())?;
    let mut loaded = 1u32;
    for _ in 1..loads {
        if load(alloc, image.as_slice()).is_ok() {
            loaded = loaded.wrapping_add(1);
        }
    }
    let Ok(program) = load(alloc, image.as_slice()) else {
        println!(rt; "refused")?;
        return Ok(());
    };
    let mut sink = MemSink::new(alloc, 0, Vec::new(alloc))?;
    let mut host: Host<Once> = Host::new(Vec::new(alloc));
    let ran = run(program, b"", &mut host, steps.min(1_099_511_627_776), false, &mut sink);
    host.close();
    println!(rt; "{loaded} loads, {:?} behind {}", ran.end, ran.count)?;
    Ok(())
}
"""


def image(code, functions, tables):
    """Code that may be written, and behind it the tables of its functions, which may not."""
    tables_at = START + len(code)
    frames_at = tables_at + len(tables) + -len(tables) % 4
    frames, _ = frame_tables(functions, frames_at, frames_at)
    header_at = frames_at + len(frames)
    _, header = frame_tables(functions, frames_at, header_at)
    data = tables.ljust(frames_at - tables_at, b"\0") + frames + header
    return elf(START, [(START, 7, code), (tables_at, 4, data)], header_at, len(header), (START, 0))


def loop_image(loop):
    code = struct.pack(f"<{len(loop)}I", *loop).ljust(2048, b"\0")
    return image(code, [(START, len(code), 0)], b"")


def many_functions(count):
    """Functions of 16 bytes, each with a table of one site and a handler of `catch (...)`."""
    table = exception_table([(0, 8, 8, 1)], True).ljust(32, b"\0")
    code = struct.pack("<4I", 0x13, 0x13, 0x13, 0x13) * count
    functions = [(START + 16 * i, 16, START + len(code) + 32 * i) for i in range(count)]
    return image(code, functions, table * count)


def built(work):
    """The program that loads and runs an image."""
    crate = rattle_program(work, "image_load", PROGRAM, NEEDS)
    (crate / "stdout").write_text("")
    run(["rt", "run"], cwd=crate)
    return crate / "out/image_load"


def seconds(*command):
    return processor_seconds(list(map(str, command)), RUNS)


def loops(program, work):
    source, peer = work / "peer.c", work / "peer"
    source.write_text(INTERPRETER % words())
    run(["cc", "-O2", "-o", peer, source])
    print(f"{'loop':12}{'C, M/s':>10}{'run, M/s':>10}{'ratio':>8}")
    for name in LOOPS:
        path = work / name
        path.write_bytes(loop_image([int(word, 16) for word in re.findall(r"0x[0-9a-f]+", words()[name])]))
        said = run([program, path, "1", str(MANY)])
        if said.strip() != f"1 loads, Budget behind {MANY}":
            sys.exit(f"{name} ends otherwise: {said}")
        theirs = (MANY - FEW) / (seconds(peer, name, MANY) - seconds(peer, name, FEW)) / 1e6
        ours = (MANY - FEW) / (seconds(program, path, 1, MANY) - seconds(program, path, 1, FEW)) / 1e6
        print(f"{name:12}{theirs:>10.1f}{ours:>10.1f}{ours / theirs:>8.2f}")


def loads(program, work):
    print(f"\n{'functions':>10}{'KiB':>8}{'loads/s':>10}{'ms':>8}{'ms more':>10}{'us each':>10}")
    smallest = None
    for count in FUNCTIONS:
        path, data = work / str(count), many_functions(count)
        path.write_bytes(data)
        said = run([program, path, "1", "0"])
        if said.strip() != "1 loads, Budget behind 0":
            sys.exit(f"{count} functions: {said}")
        each = (seconds(program, path, LOADS, 0) - seconds(program, path, 1, 0)) / (LOADS - 1)
        smallest = smallest or each
        more = each - smallest
        print(f"{count:>10}{-(-len(data) // 1024):>8}{1 / each:>10.0f}{each * 1e3:>8.2f}{more * 1e3:>10.2f}{more / count * 1e6:>10.2f}")


def main():
    with tempfile.TemporaryDirectory() as folder:
        work = pathlib.Path(folder)
        program = pathlib.Path(sys.argv[1]).resolve() if len(sys.argv) > 1 else built(work)
        loops(program, work)
        loads(program, work)


if __name__ == "__main__":
    main()
