#!/usr/bin/env python3
"""Measures the runtime on images that this script assembles, and prints two tables.

The first has turns a second: a loop of arithmetic, loads and stores, through `Runtime::turn`. The second has throws a
second across 1, 10 and 100 frames, caught behind them, where each frame only passes the exception and where each has a
cleanup that goes on with it; and beside it the same program in C++ with libgcc's unwinder. What a run with few rounds
takes is taken off. Processor time counts. Where there is valgrind, the table has host instructions too, of each frame:
what 100 frames take more than 10, with the call that makes the frame. They hardly change on a busy machine.

Usage: bench/runtime.py [--counts] [PROGRAM]. With `--counts` there are no times; a PROGRAM that an earlier run has built
is taken as it is. What is built lies in a folder of its own.
"""
import pathlib
import shutil
import sys
import tempfile

from assembling import A0, A1, A2, RA, S0, S1, SP, T0, addi, branch, call, exception_table, image, jal, load, number, store
from building import TOP, host_instructions, processor_seconds, rattle_program, run

DEPTHS, RUNS = [1, 10, 100], 3

NEEDS = ["anyhow", "eh_outer", "eh_bytes", "table_forms", "rv64_machine", "frame_read", "frame_walk", "raise_core",
         "caught_stack", "foreign_host", "cxa_runtime"]

PROGRAM = """//! Runs the image in a file through the runtime, for so many turns at most.
#![tactic(auto)]

ghost use Rattle.std.specs.Prelude.{◌≡◌, ◌&&◌, IfOk, IfSome};
ghost use Rattle.raise_core.specs.Reads.{are_readable};
ghost use Rattle.cxa_runtime.specs.Constant.{is_constant};
ghost use Rattle.cxa_runtime.specs.Lasting.{AreLasting};

use cxa_runtime::{Runtime, Turn, is_constant};
use eh_bytes::{RuntimeRecord, Segment, Segments};
use eh_outer::{MemSink, Once};
use foreign_host::Host;
use frame_read::{Frames, read_frames};
use raise_core::tables_are_readable;
use rv64_machine::Machine;
use std::alloc::{AllocError, Global};
use std::{env, fs};

const HEADER: u64 = 0x1_2800;

const PLACES: RuntimeRecord = RuntimeRecord {
    terminate: 0,
    bad_exception: 0,
};

fn machine_of(alloc: Global, image: Vec<u8>) -> Result<Machine, AllocError> {
    let mut bytes = image;
    bytes.resize(0x5000, 0)?;
    let mut parts = Vec::new(alloc);
    parts.push(Segment {
        address: 0x1_0000,
        bytes,
        file_at: 0,
        write: false,
        exec: true,
    })?;
    let mut machine = Machine::new(alloc, Segments { parts })?;
    machine.set_pc(0x1_0000);
    Ok(machine)
}

fn tables_last(machine: &Machine, frames: &Frames) -> bool
    ensures { result ≡ (is_constant machine.now && are_readable machine.now frames.now) }
{
    is_constant(machine) && tables_are_readable(machine, frames)
}

fn frames_of(alloc: Global, machine: &Machine, header: u64) -> Option<Frames>
    ensures { IfSome result (λ frames. AreLasting machine.now frames) }
{
    match read_frames(alloc, machine.tables(), header) {
        Err(_) => None,
        Ok(frames) => {
            if tables_last(machine, &frames) {
                Some(frames)
            } else {
                None
            }
        }
    }
}

fn runtime_of(alloc: Global, machine: Machine) -> Result<Option<Runtime>, AllocError>
    ensures { IfOk result (λ made. IfSome made (λ runtime. runtime.turns ≡ 0)) }
{
    match frames_of(alloc, &machine, HEADER) {
        None => Ok(None),
        Some(frames) => Ok(Some(Runtime::new(alloc, machine, frames, PLACES)?)),
    }
}

// How a run ends, and how many turns went on before.
fn run(runtime: &mut Runtime, host: &mut Host<Once>, sink: &mut MemSink, most: u32) -> (Turn, u32)
    requires { runtime.old.turns ≡ 0 }
{
    for made in 0..most {
        let turn = runtime.turn(b"", host, false, sink);
        if turn != Turn::On {
            return (turn, made);
        }
    }
    (Turn::On, most)
}

fn main(rt: HostRuntime) -> anyhow::Result<()> {
    let alloc = rt.alloc();
    let mut words = env::args(&rt)?.skip(1);
    let Some(path) = words.next() else {
        return Ok(());
    };
    let most: u32 = match words.next() {
        Some(word) => word.as_str().parse().unwrap_or(1),
        None => u32::MAX,
    };
    let image = fs::read(&rt, path.as_str())?;
    let Some(mut runtime) = runtime_of(alloc, machine_of(alloc, image)?)? else {
        println!(rt; "no tables")?;
        return Ok(());
    };
    let mut sink = MemSink::new(alloc, 0, Vec::new(alloc))?;
    let mut host = Host::new(Vec::new(alloc));
    let (turn, made) = run(&mut runtime, &mut host, &mut sink, most);
    host.close();
    println!(rt; "{turn:?} behind {made}")?;
    Ok(())
}
"""

# As many turns are made as the loop has gone round.
INVARIANT = """use Rattle.std.proofs.Common.{◌≡◌}
use Rattle.image_run.proofs.run.Given as goal

abbrev pub invariant-loop-made : goal.invariant-loop-made
invariant-loop-made l = l.runtime.turns ≡ l.made
"""

PEER = """
#include <cstdlib>
struct A { ~A() { asm volatile(""); } };
#define FRAMES(name, object) \\
    __attribute__((noinline)) static void name(int n) { \\
        object; \\
        asm volatile(""); \\
        if (n == 0) throw 5; \\
        name(n - 1); \\
        asm volatile(""); \\
    }
FRAMES(passed, )
FRAMES(cleaned, A a)
int main(int, char **argv) {
    void (*f)(int) = argv[1][0] == 'c' ? cleaned : passed;
    int depth = atoi(argv[2]);
    for (int rounds = atoi(argv[3]); rounds > 0; rounds--) {
        try { f(depth - 1); } catch (...) { }
    }
    return 0;
}
"""


def loop_image(rounds):
    """Rounds of five instructions: a store, a load, two sums and a branch."""
    body = [store(3, SP, T0, 0), load(T0, SP, 0), addi(T0, T0, 1), addi(S0, S0, -1)]
    words = [addi(SP, SP, -16), addi(T0, 0, 0), *number(S0, rounds), *body, branch(1, S0, 0, -4 * len(body))]
    words += [addi(A0, 0, 0), *call(0)]
    return image([words], [None])


def throw_image(depth, rounds, cleaned):
    """Rounds in which the last of `depth` frames throws an int, and the function below them catches it."""
    before = [addi(SP, SP, -16), addi(0, 0, 0), *number(S0, rounds)]
    loop = 4 * len(before)
    below = before + [addi(S1, 0, depth - 1), 0, *call(6), *call(7), *call(4), addi(S0, S0, -1)]
    below += [branch(1, S0, 0, loop - 4 * len(below)), addi(A0, 0, 0), *call(0)]
    below[loop // 4 + 1] = jal(RA, 4 * len(below) - loop - 4)
    calls = [addi(SP, SP, -16), store(3, SP, RA, 8), branch(0, S1, 0, 12), addi(S1, S1, -1), jal(RA, -16)]
    throws = [*call(3), addi(T0, 0, 5), store(2, A0, T0, 0), 0x14 << 12 | A1 << 7 | 0x37, addi(A2, 0, 0), *call(5)]
    pad = 4 * len(calls + throws)
    above = calls + throws + call(9)
    caught = exception_table([(loop + 4, 4, loop + 8, 1)], True)
    sites = [(16, 4, pad, 0), (pad - 4, 4, pad, 0), (pad + 4, 4, 0, 0)]
    return image([below, above], [caught, exception_table(sites, False) if cleaned else None])


def built(work):
    """The program that runs an image. One of its functions is proved as in the trials."""
    crate = rattle_program(work, "image_run", PROGRAM, NEEDS)
    (crate / "proofs/run").mkdir(parents=True)
    (crate / "proofs/run/Invariants.antt").write_text(INVARIANT)
    answers = (TOP / "crates/abi_trials/proofs/run/frames_of/Answers.antt").read_text()
    (crate / "proofs/frames_of").mkdir()
    (crate / "proofs/frames_of/Answers.antt").write_text(answers.replace("abi_trials.proofs.run.", "image_run.proofs."))
    (crate / "stdout").write_text("")
    run(["rt", "run"], cwd=crate)
    return crate / "out/image_run"


def each(measure, command_of, few, many):
    """What a round takes by a measure, from runs of few rounds and of many."""
    return (measure(command_of(many)) - measure(command_of(few))) / (many - few)


def seconds(command):
    return processor_seconds(list(map(str, command)), RUNS)


class Images:
    """The images that are written to files, each as a command of the program that runs it."""

    def __init__(self, program, work):
        self.program, self.work = program, work

    def command(self, name, data):
        path = self.work / name
        path.write_bytes(data)
        self.turns(path)
        return [self.program, path]

    def turns(self, path):
        """The turns of a run, which ends by exit."""
        said = run([self.program, path]).strip()
        if not said.startswith("Ended(Exit(0)) behind "):
            sys.exit(f"{path.name} ends otherwise: {said}")
        return int(said.split()[-1])

    def turns_of_a_round(self, command_of):
        return self.turns(command_of(2)[1]) - self.turns(command_of(1)[1])

    def loop(self, rounds):
        return self.command(f"loop {rounds}", loop_image(rounds))

    def throws(self, depth, cleaned):
        kind = "cleaned" if cleaned else "passed"
        return lambda rounds: self.command(f"{kind} {depth} {rounds}", throw_image(depth, rounds, cleaned))


def cell(value, width, digits=0):
    return f"{'-':>{width}}" if value is None else f"{value:>{width}.{digits}f}"


def turns(images, counts, times):
    rate = 5e-6 / each(seconds, images.loop, 1_000, 4_000_000) if times else None
    host = each(host_instructions, images.loop, 1_000, 41_000) / 5 if counts else None
    print(f"{'':16}{'turns M/s':>12}{'host instructions a turn':>28}")
    print(f"{'loop':16}{cell(rate, 12, 1)}{cell(host, 28, 1)}")


def throws(images, peer, depth, cleaned, counts, times):
    """The turns, the throws a second of both, and the host instructions of a throw of both."""
    kind = "cleaned" if cleaned else "passed"
    ours = images.throws(depth, cleaned)

    def theirs(rounds):
        return [peer, kind, depth, rounds]

    rounds = [(ours, 40_000 // depth), (theirs, 1_000_000 // depth)]
    rates = [1e-3 / each(seconds, command, 10, many) if times else None for command, many in rounds]
    host = [each(host_instructions, command, 10, 210) if counts else None for command in (ours, theirs)]
    return images.turns_of_a_round(ours), rates, host


def frames(images, peer, counts, times):
    print(f"\n{'frames':>16}{'turns':>8}{'ours k/s':>12}{'libgcc k/s':>12}{'ours, host':>14}{'libgcc, host':>14}   (a throw)")
    for cleaned in [False, True]:
        kind, hosts = "cleaned" if cleaned else "passed", []
        for depth in DEPTHS:
            made, rates, host = throws(images, peer, depth, cleaned, counts, times)
            hosts.append(host)
            cells = [cell(made, 8), *(cell(it, 12, 1) for it in rates), *(cell(it, 14) for it in host)]
            print(f"{depth:>6}{kind:>10}{''.join(cells)}")
        if counts:
            ours, theirs = [(hosts[2][side] - hosts[1][side]) / (DEPTHS[2] - DEPTHS[1]) for side in (0, 1)]
            print(f"{'of each frame':>16}{cell(ours, 46)}{cell(theirs, 14)}   ratio {ours / theirs:.1f}")


def main():
    words = sys.argv[1:]
    times = "--counts" not in words
    programs = [word for word in words if word != "--counts"]
    counts = shutil.which("valgrind") is not None
    with tempfile.TemporaryDirectory() as folder:
        work = pathlib.Path(folder)
        (work / "peer.cc").write_text(PEER)
        run(["g++", "-O1", "-o", work / "peer", work / "peer.cc"])
        images = Images(pathlib.Path(programs[0]).resolve() if programs else built(work), work)
        turns(images, counts, times)
        frames(images, work / "peer", counts, times)


if __name__ == "__main__":
    main()
