#!/usr/bin/env python3
"""Measures how many tokens per second `regions` lowers, and how many operations per second `pads` gives of its regions, on sources of
up to 65,536 tokens, beside the front end before them.

Usage: bench/lowering.py, at the top of the repository. It builds in a folder of its own, and prints a table: for each source its
tokens, how many of them `checked` and `regions` each take in a second, the operations of the linear code, how many of them `pads`
gives in a second, and the call sites for a token of the source; for `regions` and `pads` also how many times the time grows with
twice the source.
"""
import pathlib
import shutil
import tempfile

from building import EACH_SOURCE, TOP, rattle_program, run

ROUNDS = 20
LIMIT = 65_536

MAIN = EACH_SOURCE.replace("use std::env;", "mod read;\n\nuse read::read;\nuse std::env;") + """        let start = Instant::now(&rt)?;
        let Ok(Some((program, layout))) = read(rt.alloc(), source.as_slice()) else {
            continue;
        };
        let front = start.elapsed(&rt)?.as_micros();
        let start = Instant::now(&rt)?;
        let mut made = 0usize;
        for _ in 0..ROUNDS {
            made = region_ir::regions(rt.alloc(), &program, &layout).map_or(0, |it| it.functions.len());
        }
        let lowered = start.elapsed(&rt)?.as_micros();
        let Ok(regions) = region_ir::regions(rt.alloc(), &program, &layout) else {
            continue;
        };
        let start = Instant::now(&rt)?;
        for _ in 0..ROUNDS {
            made = landing_pads::pads(rt.alloc(), &regions).map_or(made, |it| it.functions.len());
        }
        let padded = start.elapsed(&rt)?.as_micros();
        let Ok(unit) = landing_pads::pads(rt.alloc(), &regions) else {
            continue;
        };
        let mut ops = 0usize;
        let mut sites = 0usize;
        for code in &unit.functions {
            ops = ops.wrapping_add(code.ops.len());
            sites = sites.wrapping_add(code.sites.len());
        }
        println!(rt; "{} {front} {lowered} {padded} {ops} {sites} {made}", program.program.tokens)?;
    }
    Ok(())
}

const ROUNDS: usize = %d;
""" % ROUNDS

READ = """use class_layout::{Layout, layout};
use cxx_ast::program::Checked;
use cxx_front::checked;
use std::alloc::{AllocError, Global};

// A source that is no larger than a source may be, checked, and the layout of its classes.
pub fn read(alloc: Global, source: &[u8]) -> Result<Option<(Checked, Layout)>, AllocError> {
    if source.len() > 1_048_576 {
        return Ok(None);
    }
    match checked(alloc, source) {
        Err(_) => Ok(None),
        Ok(program) => {
            let layout = layout(alloc, &program.classes)?;
            Ok(Some((program, layout)))
        }
    }
}
"""

ANSWERS = """use Rattle.lower_speed.proofs.Fitting.{fitting}
use Rattle.lower_speed.proofs.read.read.Goals as goal

pub layout-requires : goal.layout-requires
layout-requires c = fitting c.args.source.now c.in-Ok.program c.in-Ok.ensures
"""

NEEDS = ["cxx_ast", "cxx_front", "meaning_forms", "region_forms", "linear_forms", "class_layout", "region_ir", "landing_pads", "eh_bytes"]

CLASS = "struct A { int n; A(int k) { n = k; } ~A() { n = 0; } }; int g(int a) { return a; } "
PLAIN = "int f%d(int n, int m) { if (n < 4711) { n = n + m * (12 - n); } while (m) { m = m - 1; } return n; }\n"
SCOPED = "int f%d(int a) { A b(a); try { if (a) throw a; g(a); } catch (int e) { return e; } return a + 1; }\n"
CALLS = "int h%d(int n) { return g(n)" + " + g(n) * 2" * 20 + "; }\n"
SHAPES = "struct C%d { int n; A a; C%d(int k) : n(k), a(k) { } ~C%d() { try { throw n; } catch (int e) { n = e; } } };\n"
THROWER = "struct A { int n; A(int k) { n = k; } ~A() { write_int(n); } };\nvoid f0() { A a(0); throw 0; }\n"
CATCHER = "void f%d() { A a(%d); try { f%d(); } catch (int e) { throw e + 1; } }\n"
LAST = "int main() { try { f%d(); } catch (int e) { write_int(e); } return 0; }\n"


def throws(count):
    """So many functions, of which each catches what the one before it throws, and throws another."""
    catchers = "".join(CATCHER % (number, number, number - 1) for number in range(1, count))
    return THROWER + catchers + LAST % (count - 1)


def sources(limit):
    main = "int main() { return 0; }\n"
    yield "plain functions", "".join(PLAIN % number for number in range(limit // 50)) + main
    yield "objects and handlers", CLASS + "".join(SCOPED % number for number in range(limit // 45)) + main
    yield "sums of calls", CLASS + "".join(CALLS % number for number in range(limit // 160)) + main
    yield "classes", CLASS + "".join(SHAPES % (number, number, number) for number in range(limit // 57)) + main
    yield "2,000 throws", throws(2_000 * limit // (LIMIT - 100))


def main():
    work = pathlib.Path(tempfile.mkdtemp())
    try:
        names, paths = [], []
        for limit in [LIMIT // 2 - 100, LIMIT - 100]:
            for name, text in sources(limit):
                path = work / f"source{len(paths)}.cc"
                path.write_text(text)
                names.append(name)
                paths.append(str(path))
        program = rattle_program(work, "lower_speed", MAIN, NEEDS)
        (program / "src/read.rt").write_text(READ)
        (program / "proofs/read/read").mkdir(parents=True)
        (program / "proofs/read/read/Answers.antt").write_text(ANSWERS)
        shutil.copy(TOP / "crates/compiler_trials/proofs/Fitting.antt", program / "proofs")
        (program / "proofs/Lib.antt").write_text("mod Fitting\n")
        lines = run(["rt", "run", "--", *paths], cwd=program).splitlines()[-len(paths):]
        rows = [[int(word) for word in line.split()] for line in lines]
        assert len(rows) == len(paths), "a source was refused"
        print(f"{'source':22}{'tokens':>7}{'checked M/s':>13}{'regions M/s':>13}{'growth':>8}{'operations':>12}{'pads M/s':>10}{'growth':>8}{'sites a token':>15}")
        for name, half, whole in zip(names, rows, rows[len(rows) // 2:]):
            tokens, front, lowered, padded, ops, sites, _ = whole
            print(f"{name:22}{tokens:7}{tokens / front:13.2f}{tokens * ROUNDS / lowered:13.2f}{lowered / half[2]:8.2f}"
                  f"{ops:12}{ops * ROUNDS / padded:10.2f}{padded / half[3]:8.2f}{sites / tokens:15.3f}")
    finally:
        shutil.rmtree(work)


main()
