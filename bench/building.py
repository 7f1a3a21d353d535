"""What the measuring scripts share: programs that are built and run, and how many rounds they do in a second."""
import pathlib
import re
import resource
import shutil
import subprocess
import sys
import time

TOP = pathlib.Path(__file__).resolve().parent.parent

# A program begins with this that reads each file that is named, of 1 MiB at most.
EACH_SOURCE = """#![tactic(auto)]

use std::env;
use std::fs;
use std::io;
use std::time::Instant;

fn main(rt: HostRuntime) -> io::Result<()> {
    for path in env::args(&rt)?.skip(1) {
        let source = fs::read(&rt, path.as_str())?;
        if source.len() > 1_048_576 {
            continue;
        }
"""


def run(command, **how):
    done = subprocess.run(command, capture_output=True, text=True, **how)
    if done.returncode:
        sys.exit(f"{command[0]} failed:\n{done.stdout[-3000:]}{done.stderr[-3000:]}")
    return done.stdout


def program():
    """The program that `./ehc` runs."""
    subprocess.run([TOP / "ehc"], capture_output=True)
    chosen = TOP / "out/chosen"
    return TOP / (chosen.read_text().strip() if chosen.exists() else "shipped/ehc")


def crates_below(names):
    """The lines of crates.txt of these crates and of all that they stand on."""
    lines = [line for line in (TOP / "crates.txt").read_text().splitlines() if ":" in line and not line.startswith("#")]
    needs = {name.split()[0]: words.split() for name, words in (line.split(":") for line in lines)}
    kept, left = set(), list(names)
    while left:
        name = left.pop()
        if name in needs and name not in kept:
            kept.add(name)
            left += needs[name]
    return {name: words for name, words in needs.items() if name in kept}


def rattle_program(work, name, text, needs):
    """The folder of a program, beside copies of the crates that it needs."""
    below = crates_below(needs)
    for crate in below:
        shutil.copytree(TOP / "crates" / crate, work / "crates" / crate, ignore=shutil.ignore_patterns("out", "must-fail"))
    program = work / "crates" / name
    (program / "src").mkdir(parents=True)
    (program / "src/main.rt").write_text(text)
    lines = [f"{crate}: {' '.join(words)}\n" for crate, words in [*below.items(), (name, needs)]]
    (work / "crates.txt").write_text("".join(lines))
    shutil.copy(TOP / "HANDLES", work)
    return program


def built_c(work, name, text):
    source = work / f"{name}.c"
    source.write_text(text)
    run(["gcc", "-O2", "-o", work / name, source])
    return work / name


def processor_seconds(command, runs):
    """The least processor time of some runs, which other work on the machine hardly changes."""
    times = []
    for _ in range(runs):
        before = resource.getrusage(resource.RUSAGE_CHILDREN)
        subprocess.run(command, stdout=subprocess.DEVNULL, check=True)
        after = resource.getrusage(resource.RUSAGE_CHILDREN)
        times.append(after.ru_utime + after.ru_stime - before.ru_utime - before.ru_stime)
    return min(times)


def rounds_per_second(program, words, many, runs):
    """From the least times of 1 and of `many` rounds, so that what is done besides is taken off; and what was printed."""
    least, out = {}, ""
    for rounds in [1, many]:
        times = []
        for _ in range(runs):
            start = time.perf_counter()
            out = run([program, *words, str(rounds)])
            times.append(time.perf_counter() - start)
        least[rounds] = min(times)
    return (many - 1) / (least[many] - least[1]), out


def host_instructions(command):
    """How many instructions a command takes, by callgrind, which no other work on the machine changes."""
    done = subprocess.run(["valgrind", "--tool=callgrind", "--callgrind-out-file=/dev/null", *map(str, command)],
                          capture_output=True, text=True)
    return int(re.search(r"Collected : (\d+)", done.stderr).group(1))
