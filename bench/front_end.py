#!/usr/bin/env python3
"""Measures how many tokens per second the front end takes, lexer, parser and checker together, and how its time grows.

Usage: bench/front_end.py, at the top of the repository. It prints a line for each shape of source and each size: 8,192,
16,384, 32,768 and 65,536 tokens at most, each through `ehc mean --max=1`, whose meaning is that of a main that returns at once,
and beside `g++ -fsyntax-only`, both without what they need for an empty main. Behind them stand sources in which the most pairs
are looked at, and some of those that are refused. Processor time counts.
"""
import pathlib
import resource
import subprocess
import sys
import tempfile

from building import program

TOP = pathlib.Path(__file__).resolve().parent.parent
RUNS = 3
SIZES = [8_192, 16_384, 32_768, 65_536]

END = "int main() { return 0; }\n"


def calls(number):
    callee = f"f{number - 1}" if number else "g"
    head = "" if number else "int g(int n, int m) { return n + m; }\n"
    return head + f"int f{number}(int n, int m) {{ while (n < m) {{ n = {callee}(n + 1, m) * 2; }} return {callee}(m, n); }}\n"


def chains(number):
    base = f"C{number - 1}" if number % 60 else ""
    inherits, built = (f" : {base}", f"{base}(k), ") if base else ("", "")
    return f"struct C{number}{inherits} {{ int n; C{number}(int k) : {built}n(k) {{ }} ~C{number}() {{ write_int(n); }} }};\n"


def scopes(number):
    inside = "n = n + 1;"
    for level in range(20):
        inside = f"{{ int a{level} = n; int b{level} = a{level} + n; {inside} n = a{level} - b{level}; }}"
    return f"int s{number}(int n) {{ {inside} return n; }}\n"


def members(number):
    fields = "".join(f" int n{i};" for i in range(60))
    methods = "".join(f" int m{i}(int k) {{ n{i} = k; return m{(i + 1) % 60}(n{59 - i}); }}" for i in range(60))
    return f"struct M{number} {{{fields}{methods} }};\n"


def mixed(number):
    return (
        f"struct E{number} {{ int code; E{number}(int c) : code(c) {{ }} ~E{number}() {{ write_int(code); }} int get() {{ return code; }} }};\n"
        f"struct D{number} : E{number} {{ E{number} part; D{number}(int c) : E{number}(c), part(c + 1) {{ }} }};\n"
        f"int d{number}(int n, const E{number}& e) throw(E{number}, int);\n"
        f"int d{number}(int n, const E{number}& e) throw(int, E{number}) {{\n"
        f"  try {{ D{number} local(n); E{number}& r = local; if (r.get() > e.code) throw D{number}(n); throw n; }}\n"
        f"  catch (E{number}& caught) {{ return caught.code; }} catch (int k) {{ while (k > 0) {{ k = k - n; }} throw; }}\n"
        f"}}\n"
    )


SHAPES = {"functions that call": calls, "chains of 60 classes": chains, "scopes": scopes, "members": members, "all of these": mixed}


def tokens_in(text):
    """Blanks stand round each name, and each mark counts: enough to cut a source to a size."""
    for mark in ["(", ")", "{", "}", ";", ",", ":", "=", "+", "-", "*", ">", "<", "~", "&", "."]:
        text = text.replace(mark, f" {mark} ")
    return len(text.split())


def grown(shape, size):
    text, count, number = END, tokens_in(END), 0
    while True:
        piece = shape(number)
        count += tokens_in(piece)
        if count > size:
            return text
        text += piece
        number += 1


def pairs(size):
    """Sources that are accepted, with the most pairs to look at."""
    count = (size - tokens_in(END)) // 14
    declared = "".join(f"int f{number}(int n);\n" for number in range(count))
    yield "declared again", END + declared + declared
    count = (size - tokens_in(END) - 20) // 9
    classes = "".join(f"struct A{number} {{ }};\n" for number in range(count))
    there, back = (", ".join(f"A{number}" for number in order) for order in [range(count), range(count - 1, -1, -1)])
    yield "two specifications", f"{END}{classes}void f() throw({there});\nvoid f() throw({back});\n"
    parameters = ", ".join(f"int a{number}" for number in range((size - tokens_in(END) - 7) // 3))
    yield "one head", f"{END}void f({parameters});\n"
    count = (size - tokens_in(END) - 20) // 11
    functions = "".join(f" int f{number}() {{ return f{count - 1 - number}(); }}" for number in range(count))
    yield "functions of a class", f"{END}struct A {{{functions} }};\n"


def refused(size):
    """Sources that break a rule, with the most pairs to look at: each name is sought among a third of the tokens."""
    count, sought = size // 6, size // 8 - 30
    names = "".join(f"int a{number}; " for number in range(count))
    uses = f"a0 = a{count - 1}; " * sought
    bases = "struct A0 { };\n" + "".join(f"struct A{number} : A{number - 1} {{ }};\n" for number in range(1, size // 16))
    yield "one constructor", "struct A { " + "A() { } " * ((size - 15) // 5) + "}; " + END
    yield "one scope", f"void f() {{ {names}{uses}}}\n" + END
    yield "one class", f"struct A {{ {names}void f() {{ {uses}}} }};\n" + END
    yield "one chain", f"int a0;\n{bases}struct B : A{size // 16 - 1} {{ void f() {{ {'a0 = a0; ' * sought}}} }};\n" + END


def sources():
    for name, shape in SHAPES.items():
        for size in SIZES:
            yield name, True, grown(shape, size)
    for shape, is_valid in [(pairs, True), (refused, False)]:
        for number in range(4):
            for size in SIZES[-2:]:
                name, text = list(shape(size))[number]
                yield name, is_valid, text


def processor_seconds(command):
    """The least processor time of some runs, and what the last wrote on standard error."""
    times, text = [], ""
    for _ in range(RUNS):
        before = resource.getrusage(resource.RUSAGE_CHILDREN)
        text = subprocess.run(command, stdout=subprocess.DEVNULL, stderr=subprocess.PIPE, text=True).stderr
        after = resource.getrusage(resource.RUSAGE_CHILDREN)
        times.append(after.ru_utime + after.ru_stime - before.ru_utime - before.ru_stime)
    return min(times), text


def main():
    if subprocess.run([TOP / "ehc", "run", TOP / "examples/smallest.cc"], stdout=subprocess.DEVNULL).returncode:
        sys.exit("ehc could not be built")
    ehc = [program(), "mean", "--max=1"]
    with tempfile.TemporaryDirectory() as folder:
        folder = pathlib.Path(folder)
        (folder / "names.h").write_text("void write_int(int);\n")
        syntax = ["g++", "-std=c++98", "-fsyntax-only", "-w", "-include", folder / "names.h"]
        (folder / "empty.cc").write_text("int main() { }\n")
        start, peer_start = (processor_seconds([*command, folder / "empty.cc"])[0] for command in (ehc, syntax))
        print(f"{'source':24}{'tokens':>8}{'ms':>9}{'M/s':>8}{'g++ M/s':>9}{'growth':>8}")
        before = (None, 0)
        for name, is_valid, text in sources():
            path, tokens = folder / "source.cc", tokens_in(text)
            path.write_text(text)
            whole, answer = processor_seconds([*ehc, path])
            assert (answer == "") == is_valid, (name, answer)
            seconds = whole - start
            peer = f"{tokens / (processor_seconds([*syntax, path])[0] - peer_start) / 1e6:9.2f}" if is_valid else f"{'':9}"
            growth = f"{seconds / before[1]:8.2f}" if before[0] == name else ""
            print(f"{name:24}{tokens:8}{seconds * 1e3:9.2f}{tokens / seconds / 1e6:8.2f}{peer}{growth}", flush=True)
            before = (name, seconds)


main()
