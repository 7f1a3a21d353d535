#!/usr/bin/env python3
"""Measures how emitted code is linked, and how its images are loaded, on chains of functions that throw and catch.

Usage: bench/linking.py [PROGRAM], at the top of the repository. A PROGRAM that an earlier run has built is taken as it is; what
is built lies in a folder of its own. It prints a line for each length of the chain: the functions and the size of the image, how
often `link` makes it in a second and `load` loads it, how the time of each grows, what `g++ -O0 -c` takes for the same source and
the linker for what comes of it, both without what they take for an empty main, and how much of that `link` takes. Processor time
counts, and what is done besides is taken off.
"""
import pathlib
import re
import shutil
import sys
import tempfile

from building import TOP, processor_seconds, rattle_program, run
from compiling import EMPTY, LENGTHS, PEER, chain

RUNS, LINKS, LOADS = 3, 41, 41

NEEDS = [
    "anyhow", "cxx_ast", "cxx_front", "meaning_forms", "region_forms", "linear_forms", "machine_forms", "class_layout", "region_ir",
    "landing_pads", "rv64_emit", "image_forms", "image_link", "eh_bytes", "eh_outer", "run_items", "eh_run",
]

MAIN = """//! Links the code of a source so many times, and loads its image so many times.
#![tactic(auto)]

mod read;

use eh_run::load;
use image_link::link;
use read::emitted;
use std::{env, fs};

fn main(rt: HostRuntime) -> anyhow::Result<()> {
    let alloc = rt.alloc();
    let mut words = env::args(&rt)?.skip(1);
    let (Some(path), Some(links), Some(loads)) = (words.next(), words.next(), words.next()) else {
        return Ok(());
    };
    let links: u32 = links.as_str().parse().unwrap_or(1);
    let loads: u32 = loads.as_str().parse().unwrap_or(1);
    let source = fs::read(&rt, path.as_str())?;
    let Ok(Some(code)) = emitted(alloc, source.as_slice()) else {
        println!(rt; "refused")?;
        return Ok(());
    };
    let mut linked = 1u32;
    for _ in 1..links {
        if link(alloc, &code).is_ok() {
            linked = linked.wrapping_add(1);
        }
    }
    let Ok(image) = link(alloc, &code) else {
        println!(rt; "no memory")?;
        return Ok(());
    };
    let mut loaded = 0u32;
    for _ in 0..loads {
        if load(alloc, image.as_slice()).is_ok() {
            loaded = loaded.wrapping_add(1);
        }
    }
    println!(rt; "{linked} links, {loaded} loads of {} functions in {} bytes", code.functions.len(), image.len())?;
    Ok(())
}
"""

READ = """use class_layout::layout;
use cxx_front::checked;
use eh_bytes::Emitted;
use landing_pads::pads;
use region_ir::regions;
use rv64_emit::emit;
use std::alloc::{AllocError, Global};

// The code of a source that is no larger than a source may be.
pub fn emitted(alloc: Global, source: &[u8]) -> Result<Option<Emitted>, AllocError> {
    if source.len() > 1_048_576 {
        return Ok(None);
    }
    match checked(alloc, source) {
        Err(_) => Ok(None),
        Ok(program) => {
            let layout = layout(alloc, &program.classes)?;
            let regions = regions(alloc, &program, &layout)?;
            let unit = pads(alloc, &regions)?;
            Ok(Some(emit(alloc, &unit)?))
        }
    }
}
"""

ANSWERS = """use Rattle.link_speed.proofs.Fitting.{fitting}
use Rattle.link_speed.proofs.read.emitted.Goals as goal

pub layout-requires : goal.layout-requires
layout-requires c = fitting c.args.source.now c.in-Ok.program c.in-Ok.ensures
"""


def written(work):
    """The folder of the program that links and loads, in which nothing is built yet."""
    crate = rattle_program(work, "link_speed", MAIN, NEEDS)
    (crate / "src/read.rt").write_text(READ)
    (crate / "proofs/read/emitted").mkdir(parents=True)
    (crate / "proofs/read/emitted/Answers.antt").write_text(ANSWERS)
    shutil.copy(TOP / "crates/compiler_trials/proofs/Fitting.antt", crate / "proofs")
    (crate / "proofs/Lib.antt").write_text("mod Fitting\n")
    (crate / "stdout").write_text("")
    return crate


def built(work):
    crate = written(work)
    run(["rt", "run"], cwd=crate)
    return crate / "out/link_speed"


def seconds(*command):
    return processor_seconds(list(map(str, command)), RUNS)


def peer(work, text):
    """What `g++ -O0 -c` takes for a source, and what the linker takes for it."""
    source, unit, helper = work / "peer.cc", work / "peer.o", work / "write_int.o"
    source.write_text(PEER + text)
    compiling = seconds("g++", "-O0", "-w", "-c", "-o", unit, source)
    if not helper.exists():
        (work / "write_int.cc").write_text("void write_int(int) {}\n")
        run(["g++", "-c", "-o", helper, work / "write_int.cc"])
    return compiling, seconds("g++", "-o", work / "peer", unit, helper)


def main():
    with tempfile.TemporaryDirectory() as folder:
        work = pathlib.Path(folder)
        program = pathlib.Path(sys.argv[1]).resolve() if len(sys.argv) > 1 else built(work)
        empty = peer(work, EMPTY)
        print(f"{'functions':>9}{'image kB':>10}{'links/s':>9}{'growth':>8}{'loads/s':>9}{'growth':>8}{'g++ ms':>9}{'linker ms':>11}{'ratio':>8}")
        before = None
        for length in LENGTHS:
            source = work / "source.cc"
            source.write_text(chain(length))
            said = re.fullmatch(r"1 links, 1 loads of (\d+) functions in (\d+) bytes\n", run([program, source, "1", "1"]))
            assert said, "a source was refused"
            least = seconds(program, source, 1, 1)
            linking = (seconds(program, source, LINKS, 1) - least) / (LINKS - 1)
            loading = (seconds(program, source, 1, LOADS) - least) / (LOADS - 1)
            growth = [f"{now / then:8.2f}" for now, then in zip((linking, loading), before)] if before else [f"{'':8}"] * 2
            compiling, joining = (now - then for now, then in zip(peer(work, chain(length)), empty))
            print(f"{said[1]:>9}{int(said[2]) / 1000:10.0f}{1 / linking:9.0f}{growth[0]}{1 / loading:9.0f}{growth[1]}"
                  f"{compiling * 1e3:9.0f}{joining * 1e3:11.1f}{linking / (compiling + joining):8.4f}", flush=True)
            before = linking, loading


if __name__ == "__main__":
    main()
