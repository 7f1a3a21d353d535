#!/usr/bin/env python3
"""Measures how many sites a second lsda_read finds by their address, beside the same scan in C at -O2.

Both programs look through a table from its first site on, as a personality routine does, at addresses of random
sites. What they do besides is measured by a run with few look-ups, and taken off; the least time of some runs counts.
What is built lies in a folder of its own.
"""
import pathlib
import sys
import tempfile

from building import built_c, rattle_program, rounds_per_second, run

SITES, READ, RUNS = [10, 100, 1000], 50_000_000, 5

PROGRAM = """//! Looks sites up in an exception table again and again.
#![tactic(auto)]

use eh_bytes::{Region64, Segment, Segments, put_uleb};
use lsda_read::Lsda;
use std::env;

fn sum_of_ends(table: &Lsda<'_>, sites: u32, rounds: u32) -> u64 {
    let mut state = 1u64;
    let mut sum = 0u64;
    for _ in 0..rounds {
        state = state
            .wrapping_mul(0x5851_f42d_4c95_7f2d)
            .wrapping_add(0x1405_7b7e_f767_814f);
        let place = 0x1_0000 + (state >> 32) % u64::from(sites.max(1)) * 16;
        let found = table.sites().find(|site| site.start <= place && place < site.end);
        if let Some(site) = found {
            sum = sum.wrapping_add(site.end);
        }
    }
    sum
}

fn main(rt: HostRuntime) -> anyhow::Result<()> {
    let mut words = env::args(&rt)?.skip(1);
    let sites: u32 = match words.next() {
        Some(word) => word.as_str().parse().unwrap_or(1),
        None => 1,
    };
    let rounds: u32 = match words.next() {
        Some(word) => word.as_str().parse().unwrap_or(1),
        None => 1,
    };
    let mut records = Vec::new(rt.alloc());
    for i in 0..u64::from(sites) {
        put_uleb(&mut records, i * 16)?;
        put_uleb(&mut records, 8)?;
        put_uleb(&mut records, 0)?;
        put_uleb(&mut records, 0)?;
    }
    let mut bytes = Vec::new(rt.alloc());
    bytes.extend_from_slice(b"\\xff\\xff\\x01".as_slice())?;
    put_uleb(&mut bytes, records.len() as u64)?;
    bytes.extend_from_slice(records.as_slice())?;
    let mut parts = Vec::new(rt.alloc());
    parts.push(Segment {
        address: 0x1000,
        bytes,
        file_at: 0,
        write: false,
        exec: false,
    })?;
    let memory = Segments { parts };
    let region = Region64 {
        start: 0x1_0000,
        length: u64::from(sites) * 16,
    };
    if let Ok(table) = Lsda::read_at(&memory, 0x1000, region) {
        let sum = sum_of_ends(&table, sites, rounds);
        println!(rt; "{sum}")?;
    }
    Ok(())
}
"""

PEER = """#include <stdint.h>
#include <stdio.h>
#include <stdlib.h>

static uint8_t *put(uint8_t *out, uint64_t value) {
    while (value >= 128) { *out++ = value % 128 + 128; value /= 128; }
    *out++ = value;
    return out;
}

/* As libgcc does, neither the end of the bytes nor the length of a number is tested. */
static const uint8_t *take(const uint8_t *bytes, uint64_t *value) {
    uint64_t all = 0;
    unsigned shift = 0;
    uint8_t byte;
    do { byte = *bytes++; all |= (uint64_t)(byte & 127) << shift; shift += 7; } while (byte & 128);
    *value = all;
    return bytes;
}

int main(int argc, char **argv) {
    unsigned sites = argc > 1 ? atoi(argv[1]) : 1, rounds = argc > 2 ? atoi(argv[2]) : 1;
    uint8_t *bytes = malloc(40 * sites), *end = bytes;
    for (unsigned i = 0; i < sites; i++) { end = put(end, i * 16); end = put(end, 8); end = put(end, 0); end = put(end, 0); }
    uint64_t state = 1, sum = 0;
    for (unsigned i = 0; i < rounds; i++) {
        state = state * 0x5851f42d4c957f2d + 0x14057b7ef767814f;
        uint64_t place = 0x10000 + (state >> 32) % sites * 16;
        for (const uint8_t *at = bytes; at < end; ) {
            uint64_t start, length, pad, action;
            at = take(take(take(take(at, &start), &length), &pad), &action);
            start += 0x10000;
            if (start <= place && place < start + length) { sum += start + length; break; }
        }
    }
    printf("%llu\\n", (unsigned long long)sum);
    return 0;
}
"""


def build_rattle(work, peer):
    crate = rattle_program(work, "site_lookup", PROGRAM, ["anyhow", "eh_bytes", "lsda_read"])
    (crate / "stdout").write_text(run([peer, "1", "1"]))
    run(["rt", "run"], cwd=crate)
    return crate / "out/site_lookup"


def measured(program, sites):
    """Look-ups a second, and what was printed."""
    return rounds_per_second(program, [str(sites)], READ // sites, RUNS)


def main():
    with tempfile.TemporaryDirectory() as folder:
        work = pathlib.Path(folder)
        peer = built_c(work, "lookup", PEER)
        reader = build_rattle(work, peer)
        print(f"{'sites':>6}{'lsda_read':>14}{'C -O2':>14}   ratio    (thousand look-ups a second)")
        for sites in SITES:
            ours, out = measured(reader, sites)
            theirs, wanted = measured(peer, sites)
            if out != wanted:
                sys.exit(f"the programs disagree: {out!r} and {wanted!r}")
            print(f"{sites:>6}{ours / 1e3:>14.1f}{theirs / 1e3:>14.1f}{ours / theirs:>8.2f}")


if __name__ == "__main__":
    main()
