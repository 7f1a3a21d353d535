#!/usr/bin/env python3
"""Counts the instructions of a look-up of a place by frame_read, beside a scan of the same list, and those of a reading.

The frames are those of `frames.py`, with 10, 1,000 and 20,000 FDEs of one CIE; they are read some times, and then places in
regions that follow no order are looked up. What a run does besides is taken off by one with fewer readings or look-ups.
callgrind counts, so that other work on the machine changes nothing. What is built lies in a folder of its own.
"""
import pathlib
import sys
import tempfile

from building import host_instructions, rattle_program, run
from frames import CODE, HEADER, headed

SIZES, READINGS, LOOKUPS, SCANNED = [10, 1_000, 20_000], 3, 20_000, 2_000_000

PROGRAM = """//! Reads frames so many times, and looks so many places up in them, by halves or by a scan.
#![tactic(auto)]

use eh_bytes::{Segment, Segments};
use frame_read::{Frames, read_frames};
use std::{env, fs};

fn scanned(frames: &Frames, pc: u64) -> u64 {
    match frames.fdes().iter().find(|fde| fde.holds(pc)) {
        Some(fde) => fde.address,
        None => 0,
    }
}

fn found(frames: &Frames, pc: u64) -> u64 {
    match frames.fde_for(pc) {
        Some(fde) => fde.address,
        None => 0,
    }
}

fn sum_of_addresses(frames: &Frames, scans: bool, lookups: u32) -> u64 {
    let count = frames.fdes().len() as u64;
    let mut state = 1u64;
    let mut sum = 0u64;
    for _ in 0..lookups {
        state = state
            .wrapping_mul(0x5851_f42d_4c95_7f2d)
            .wrapping_add(0x1405_7b7e_f767_814f);
        let pc = %d + (state >> 32) %% count.max(1) * 256 + (state >> 20) %% 128;
        let address = if scans { scanned(frames, pc) } else { found(frames, pc) };
        sum = sum.wrapping_add(address);
    }
    sum
}

fn main(rt: HostRuntime) -> anyhow::Result<()> {
    let mut words = env::args(&rt)?.skip(1);
    let (Some(path), Some(readings), Some(lookups)) = (words.next(), words.next(), words.next()) else {
        return Ok(());
    };
    let readings: u32 = readings.as_str().parse().unwrap_or(1);
    let lookups: u32 = lookups.as_str().parse().unwrap_or(1);
    let bytes = fs::read(&rt, path.as_str())?;
    if bytes.len() > 0x20_0000 {
        return Ok(());
    }
    let mut parts = Vec::new(rt.alloc());
    parts.push(Segment {
        address: %d,
        bytes,
        file_at: 0,
        write: false,
        exec: false,
    })?;
    let memory = Segments { parts };
    let mut read = 0usize;
    for _ in 1..readings {
        read = read_frames(rt.alloc(), &memory, %d).map_or(0, |frames| frames.fdes().len());
    }
    if let Ok(frames) = read_frames(rt.alloc(), &memory, %d) {
        let sum = sum_of_addresses(&frames, words.next().is_some(), lookups);
        println!(rt; "{sum} {read}")?;
    }
    Ok(())
}
""" % (CODE, HEADER, HEADER, HEADER)


def built(work):
    crate = rattle_program(work, "frame_lookup", PROGRAM, ["anyhow", "eh_bytes", "frame_read"])
    (crate / "stdout").write_text("")
    run(["rt", "run"], cwd=crate)
    return crate / "out/frame_lookup"


def each(command_of, few, many):
    """The instructions of one, from commands of few and of many."""
    return (host_instructions(command_of(many)) - host_instructions(command_of(few))) / (many - few)


def main():
    with tempfile.TemporaryDirectory() as folder:
        work = pathlib.Path(folder)
        program = pathlib.Path(sys.argv[1]) if len(sys.argv) > 1 else built(work)
        print(f"{'FDEs':>6}{'by halves':>11}{'scan':>10}{'ratio':>9}{'a reading':>13}{'an FDE':>9}    (instructions)")
        for size in SIZES:
            path = work / str(size)
            path.write_bytes(headed(size, size)[0])
            sums = [run([program, path, "1", "1000", *kind]) for kind in ([], ["scan"])]
            if sums[0] != sums[1] or sums[0].split()[0] == "0":
                sys.exit(f"the two disagree at {size}: {sums}")
            halves = each(lambda many: [program, path, 1, many], 1, LOOKUPS)
            scan = each(lambda many: [program, path, 1, many, "scan"], 1, SCANNED // size)
            reading = each(lambda many: [program, path, many, 1], 1, READINGS)
            print(f"{size:>6}{halves:>11.0f}{scan:>10.0f}{scan / halves:>9.1f}{reading:>13.0f}{reading / size:>9.0f}")


if __name__ == "__main__":
    main()
