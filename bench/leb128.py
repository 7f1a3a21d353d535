#!/usr/bin/env python3
"""Measures how many LEB128 numbers a second the cursor of eh_bytes reads, beside the same loop in C at -O2.

Both programs write the same numbers and read them again and again. What they do besides is measured by a run that
reads once, and taken off; the least time of some runs counts. What is built lies in a folder of its own.
"""
import pathlib
import sys
import tempfile

from building import built_c, rattle_program, rounds_per_second, run

NUMBERS, MANY, RUNS = 1 << 20, 201, 7
KINDS = ["unsigned", "signed"]
SIZES = [("small", "1 or 2 bytes"), ("any", "1 to 10 bytes")]

PROGRAM = """//! Reads LEB128 numbers again and again.
#![tactic(auto)]

use eh_bytes::{RawCursor, put_sleb, put_uleb};
use std::env;

const NUMBERS: u32 = @NUMBERS@;

fn sum_of_unsigned(bytes: &[u8]) -> u64 {
    let mut cursor = RawCursor::new(bytes, 0);
    let mut sum = 0u64;
    for _ in 0..NUMBERS {
        let Ok(value) = cursor.take_uleb() else {
            return 0;
        };
        sum = sum.wrapping_add(value);
    }
    sum
}

fn sum_of_signed(bytes: &[u8]) -> u64 {
    let mut cursor = RawCursor::new(bytes, 0);
    let mut sum = 0u64;
    for _ in 0..NUMBERS {
        let Ok(value) = cursor.take_sleb() else {
            return 0;
        };
        sum = sum.wrapping_add(value.cast_unsigned());
    }
    sum
}

fn main(rt: HostRuntime) -> anyhow::Result<()> {
    let mut words = env::args(&rt)?.skip(1);
    let is_signed = words.next().is_some_and(|word| word.as_str() == "signed");
    let is_small = words.next().is_some_and(|word| word.as_str() == "small");
    let rounds: u32 = match words.next() {
        Some(word) => word.as_str().parse().unwrap_or(1),
        None => 1,
    };
    let mut state = 1u64;
    let mut bytes = Vec::new(rt.alloc());
    for _ in 0..NUMBERS {
        state = state
            .wrapping_mul(0x5851_f42d_4c95_7f2d)
            .wrapping_add(0x1405_7b7e_f767_814f);
        let places = state / 0x1_0000_0000 % 64;
        let value = if is_small { (state >> places) % 0x2000 } else { state >> places };
        if is_signed {
            put_sleb(&mut bytes, value.cast_signed())?;
        } else {
            put_uleb(&mut bytes, value)?;
        }
    }
    let mut all = 0u64;
    for _ in 0..rounds {
        let sum = if is_signed { sum_of_signed(&bytes) } else { sum_of_unsigned(&bytes) };
        all = all.wrapping_add(sum);
    }
    println!(rt; "{all}")?;
    Ok(())
}
"""

PEER = """#include <stdint.h>
#include <stdio.h>
#include <stdlib.h>
#include <string.h>

#define NUMBERS @NUMBERS@

static size_t put_unsigned(uint8_t *out, uint64_t value) {
    size_t n = 0;
    while (value >= 128) { out[n++] = value % 128 + 128; value /= 128; }
    out[n++] = value;
    return n;
}

static size_t put_signed(uint8_t *out, int64_t value) {
    size_t n = 0;
    while (value < -64 || value >= 64) { out[n++] = (value & 127) + 128; value >>= 7; }
    out[n++] = value & 127;
    return n;
}

struct cursor { const uint8_t *bytes; size_t length, position; };

/* The end of the bytes and the count of ten are tested, as the cursor does; that ten bytes fit 64 bits is not. */
static int take_unsigned(struct cursor *c, uint64_t *value) {
    uint64_t all = 0;
    size_t at = c->position;
    for (unsigned shift = 0; shift < 70; shift += 7) {
        if (at == c->length) return 0;
        uint8_t byte = c->bytes[at++];
        all |= (uint64_t)(byte & 127) << shift;
        if (byte < 128) { *value = all; c->position = at; return 1; }
    }
    return 0;
}

static int take_signed(struct cursor *c, uint64_t *value) {
    uint64_t all = 0;
    size_t at = c->position;
    for (unsigned shift = 0; shift < 70; shift += 7) {
        if (at == c->length) return 0;
        uint8_t byte = c->bytes[at++];
        all |= (uint64_t)(byte & 127) << shift;
        if (byte < 128) {
            if (byte & 64 && shift < 57) all |= ~(uint64_t)0 << (shift + 7);
            *value = all;
            c->position = at;
            return 1;
        }
    }
    return 0;
}

int main(int argc, char **argv) {
    int is_signed = argc > 1 && !strcmp(argv[1], "signed"), is_small = argc > 2 && !strcmp(argv[2], "small");
    unsigned rounds = argc > 3 ? atoi(argv[3]) : 1;
    uint64_t state = 1, all = 0, value;
    uint8_t *bytes = malloc(10 * NUMBERS);
    size_t length = 0;
    for (unsigned i = 0; i < NUMBERS; i++) {
        state = state * 0x5851f42d4c957f2d + 0x14057b7ef767814f;
        value = state >> state / 0x100000000 % 64;
        if (is_small) value %= 0x2000;
        length += is_signed ? put_signed(bytes + length, value) : put_unsigned(bytes + length, value);
    }
    for (unsigned i = 0; i < rounds; i++) {
        struct cursor c = { bytes, length, 0 };
        for (unsigned k = 0; k < NUMBERS; k++) {
            if (!(is_signed ? take_signed(&c, &value) : take_unsigned(&c, &value))) return 1;
            all += value;
        }
    }
    printf("%llu\\n", (unsigned long long)all);
    return 0;
}
"""


def build_rattle(work, peer):
    crate = rattle_program(work, "leb_reader", PROGRAM.replace("@NUMBERS@", str(NUMBERS)), ["anyhow", "eh_bytes"])
    (crate / "stdout").write_text(run([peer, "unsigned", "any", "1"]))
    run(["rt", "run"], cwd=crate)
    return crate / "out/leb_reader"


def measured(program, kind, size):
    """Million numbers a second, and what was printed."""
    rounds, out = rounds_per_second(program, [kind, size], MANY, RUNS)
    return NUMBERS * rounds / 1e6, out


def main():
    with tempfile.TemporaryDirectory() as folder:
        work = pathlib.Path(folder)
        peer = built_c(work, "reader", PEER.replace("@NUMBERS@", str(NUMBERS)))
        programs = [build_rattle(work, peer), peer]
        print(f"{'numbers':<26}{'cursor':>10}{'C -O2':>10}{'ratio':>8}    (million a second)")
        for kind in KINDS:
            for size, name in SIZES:
                (ours, said), (peers, wanted) = (measured(p, kind, size) for p in programs)
                if said != wanted:
                    sys.exit(f"{kind}: the two programs read different numbers")
                print(f"{kind + ', ' + name:<26}{ours:>10.0f}{peers:>10.0f}{ours / peers:>8.2f}")


if __name__ == "__main__":
    main()
