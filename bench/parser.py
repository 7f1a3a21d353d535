#!/usr/bin/env python3
"""Measures how many tokens per second `parse` reads, beside `g++ -fsyntax-only` on the same sources.

Usage: bench/parser.py, at the top of the repository. It builds in a folder of its own, and prints a table. What g++ needs for an
empty source is taken off its times; it lexes and checks besides.
"""
import pathlib
import shutil
import subprocess
import tempfile
import time

from building import EACH_SOURCE, rattle_program, run

ROUNDS = 100
LIMIT = 65_536

MAIN = EACH_SOURCE + """        let Ok(tokens) = cxx_lexer::lex(rt.alloc(), source.as_slice()) else {
            continue;
        };
        if tokens.len() > 65_536 {
            continue;
        }
        let start = Instant::now(&rt)?;
        let mut read = 0usize;
        for _ in 0..ROUNDS {
            read = cxx_parser::parse(rt.alloc(), tokens.as_slice(), 1_048_576).map_or(0, |program| program.decls.len());
        }
        println!(rt; "{} {} {read}", start.elapsed(&rt)?.as_micros(), tokens.len())?;
    }
    Ok(())
}

const ROUNDS: usize = %d;
""" % ROUNDS


def sources():
    body = "int f%d(int n, int m) { if (n < 4711) { n = n + m * (12 - n); } while (m) { m = m - 1; } return n; }\n"
    yield "functions", "".join(body % number for number in range(LIMIT // 50))
    yield "globals", "".join(f"int g{number} = {number};\n" for number in range(LIMIT // 5))
    yield "sums of 50", "".join("int h%d(int n) { return n%s; }\n" % (number, " + n * 2" * 25) for number in range(LIMIT // 111))
    yield "one list of arguments", "void f(int a); void g() { f(1" + ", 1" * ((LIMIT - 20) // 2) + "); }\n"
    classes = "struct C%d { int n; C%d(int k) : n(k) { } ~C%d() { try { throw n; } catch (int e) { n = e; } } };\n"
    yield "classes", "".join(classes % (number, number, number) for number in range(LIMIT // 46))


def least(command, runs=5):
    times = []
    for _ in range(runs):
        start = time.perf_counter()
        subprocess.run(command, capture_output=True)
        times.append(time.perf_counter() - start)
    return min(times)


def main():
    work = pathlib.Path(tempfile.mkdtemp())
    try:
        files = []
        for number, (name, text) in enumerate(sources()):
            path = work / f"source{number}.cc"
            path.write_text(text)
            files.append((name, path))
        (work / "empty.cc").write_text("")
        program = rattle_program(work, "parse_speed", MAIN, ["cxx_ast", "cxx_lexer", "cxx_parser"])
        paths = [str(path) for _, path in files]
        ours = run(["rt", "run", "--", *paths], cwd=program)
        syntax = ["g++", "-std=c++98", "-fsyntax-only", "-w"]
        start = least([*syntax, work / "empty.cc"])
        print(f"{'source':24}{'tokens':>8}{'parse M/s':>11}{'g++ M/s':>9}")
        for (name, path), our in zip(files, ours.splitlines()[-len(files):]):
            micros, tokens, read = map(int, our.split())
            assert read, name
            peer = least([*syntax, path]) - start
            print(f"{name:24}{tokens:8}{tokens * ROUNDS / micros:11.2f}{tokens / peer / 1e6:9.2f}")
    finally:
        shutil.rmtree(work)


main()
