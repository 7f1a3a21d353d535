#!/usr/bin/env python3
"""Times the caught-exception stack beside a C program over plain arrays, and prints a small table.

Pairs: an exception is thrown, a handler of it begins and ends. Swaps: a live exception is freed, and another allocated, in
an order that jumps about. Each with 1, 32 and 1,024 exceptions live. What it builds lies in a folder of its own: a
repository with the crate and a program over it, which `rt run` proves and builds.
"""
import pathlib
import statistics
import subprocess
import sys
import tempfile
import time

from building import rattle_program

ROUNDS = 20_000_000

PROGRAM = """//! Works on a stack of caught exceptions: `pairs LIVE ROUNDS` or `swaps LIVE ROUNDS`.
#![tactic(auto)]

use caught_stack::{CaughtStack, Header, HeaderKind};
use std::alloc::{AllocError, Global};
use std::env;
use std::process::ExitCode;

fn header(number: u64) -> Header {
    Header {
        number,
        kind: HeaderKind::Native(0x1_0000, 0),
        handlers: (0, 0),
        target: 0,
        lsda: 0,
    }
}

fn pair(stack: &mut CaughtStack, slot: u32) {
    if stack.uncaught() >= 2048 {
        return;
    }
    stack.raised();
    let count = stack.count(slot);
    if stack.header(slot).is_some() && count == 0 {
        stack.begin(slot);
        let _ = stack.end();
    }
}

fn swap(stack: &mut CaughtStack, slot: u32, number: u64) {
    if stack.header(slot).is_some() && stack.count(slot) == 0 {
        stack.free(slot);
        let _ = stack.allocate(header(number));
    }
}

fn work(alloc: Global, pairs: bool, live: u32, rounds: u32) -> Result<u32, AllocError> {
    let mut stack = CaughtStack::new(alloc)?;
    for number in 0..live {
        let _ = stack.allocate(header(u64::from(number)));
    }
    let mut place: u32 = 0;
    for number in 0..rounds {
        place = place.wrapping_mul(1_664_525).wrapping_add(1_013_904_223);
        let slot = 1023 - (place >> 22) % live.max(1) % 1024;
        if pairs {
            pair(&mut stack, slot);
        } else {
            swap(&mut stack, slot, u64::from(number));
        }
    }
    Ok(stack.uncaught())
}

fn number_at(words: &[String], i: usize) -> u32 {
    match words.get(i) {
        Some(word) => word.as_str().parse::<u32>().unwrap_or(0),
        None => 0,
    }
}

fn main(rt: HostRuntime) -> ExitCode {
    let Ok(args) = env::args(&rt) else {
        return ExitCode::from(1);
    };
    let mut words = Vec::new(rt.alloc());
    for word in args {
        if words.push(word).is_err() {
            return ExitCode::from(1);
        }
    }
    let pairs = number_at(&words, 1) == 1;
    match work(rt.alloc(), pairs, number_at(&words, 2), number_at(&words, 3)) {
        Ok(0) => ExitCode::from(0),
        _ => ExitCode::from(1),
    }
}
"""

PEER = """
#include <stdlib.h>
#include <stdint.h>
struct header { uint64_t number, kind[3], handlers[2], target, lsda; };
static struct { char live; struct header h; } headers[1024];
static int64_t counts[1024];
static uint32_t caught[1024], vacant[1024], ncaught, nvacant, uncaught;
__attribute__((noinline)) static int allocate(uint64_t number) {
    if (!nvacant) return -1;
    uint32_t s = vacant[--nvacant];
    headers[s].live = 1;
    headers[s].h = (struct header){ .number = number };
    return s;
}
__attribute__((noinline)) static void release(uint32_t s) { headers[s].live = 0; vacant[nvacant++] = s; }
__attribute__((noinline)) static void begin(uint32_t s) {
    if (!ncaught || caught[ncaught - 1] != s) caught[ncaught++] = s;
    counts[s] = counts[s] < 0 ? 1 - counts[s] : counts[s] + 1;
    uncaught--;
}
__attribute__((noinline)) static int end(void) {
    if (!ncaught) return -1;
    uint32_t s = caught[ncaught - 1];
    counts[s] += counts[s] < 0 ? 1 : -1;
    if (!counts[s]) ncaught--;
    return s;
}
int main(int argc, char **argv) {
    if (argc < 4) return 2;
    int pairs = atoi(argv[1]) == 1;
    uint32_t live = atoi(argv[2]), rounds = atoi(argv[3]), place = 0;
    for (uint32_t s = 0; s < 1024; s++) vacant[nvacant++] = s;
    for (uint32_t i = 0; i < live; i++) allocate(i);
    for (uint32_t i = 0; i < rounds; i++) {
        place = place * 1664525u + 1013904223u;
        uint32_t s = 1023 - (place >> 22) % live % 1024;
        if (pairs) {
            if (uncaught >= 2048) continue;
            uncaught++;
            if (headers[s].live && counts[s] == 0) { begin(s); end(); }
        } else if (headers[s].live && counts[s] == 0) {
            release(s);
            allocate(i);
        }
    }
    return uncaught != 0;
}
"""


def built(folder):
    """The program, and its peer in C."""
    crate = rattle_program(folder, "caught_bench", PROGRAM, ["caught_stack"])
    done = subprocess.run(["rt", "run", "--", "1", "1", "10"], cwd=crate, capture_output=True, text=True)
    program = crate / "out/caught_bench"
    if not program.exists():
        sys.exit(f"the program could not be built:\n{done.stdout[-3000:]}{done.stderr[-3000:]}")
    (folder / "peer.c").write_text(PEER)
    subprocess.run(["cc", "-O2", "-o", folder / "peer", folder / "peer.c"], check=True)
    return {"C": folder / "peer", "caught_stack": program}


def seconds(program, *words):
    begin = time.perf_counter()
    subprocess.run([program, *map(str, words)], check=True)
    return time.perf_counter() - begin


def main():
    with tempfile.TemporaryDirectory() as folder:
        programs = built(pathlib.Path(folder))
        print(f"{'work':8}{'live':>6}{'program':>16}{'ns a round':>12}{'million a second':>18}")
        for code, work in [(1, "pairs"), (2, "swaps")]:
            for live in [1, 32, 1024]:
                for name, program in programs.items():
                    start = min(seconds(program, code, live, 0) for _ in range(5))
                    took = statistics.median(seconds(program, code, live, ROUNDS) for _ in range(5)) - start
                    print(f"{work:8}{live:>6}{name:>16}{took / ROUNDS * 1e9:12.2f}{ROUNDS / took / 1e6:18.1f}")


main()
