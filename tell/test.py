"""Tests of the scripts in this folder: `python3 tell/test.py`. What is wanted was worked out by hand, or is what the program itself answers."""
import itertools
import json
import os
import pathlib
import random
import re
import subprocess
import tempfile
import unittest

import dumped
import elf
import frames
import mangled
import pages
import program
import related
import source
import tokens
import transcripts
import usage

TOP = pathlib.Path(__file__).resolve().parent.parent
EXAMPLES = TOP / "examples"
# ISO/IEC 14882:2003, 2.11: the keywords and the alternative tokens.
KEYWORDS = """asm auto bool break case catch char class const const_cast continue default delete do double dynamic_cast else enum explicit export extern
    false float for friend goto if inline int long mutable namespace new operator private protected public register reinterpret_cast return short
    signed sizeof static static_cast struct switch template this throw true try typedef typeid typename union unsigned using virtual void volatile
    wchar_t while and and_eq bitand bitor compl not not_eq or or_eq xor xor_eq""".split()
# Sources with `@` before each place that is asked, as it is not part of them.
MARKED = [
    "@struct A @: @public B @{ int n@; A(int k@) @: n(@1@) { @} ~@A@() @{ } }@;",
    "@int f(@const @A@& @r@, int@) @throw@(@std@::@bad_exception@, int@) @{ @try @{ @a.@b @= @-@c @+ d@; @} catch @(@...@) @{ @throw @1@; } @if @(@!a@) @; @else @; @}",
    "int g@; int @main(@) { @return @f(@1@, 2)@; A @a@(1@); std@::terminate(@)@; while @(1@) @break@; const @int@& r @= @a@;",
]


def refused(text):
    """What the program says of a source."""
    with tempfile.NamedTemporaryFile(suffix=".cc") as file:
        file.write(text.encode())
        file.flush()
        return subprocess.run([program.program(), "mean", "--max=1", file.name], capture_output=True, text=True).stderr


class Expected(unittest.TestCase):
    """What may stand at a place."""

    def test_is_the_same_when_each_token_is_asked_of_the_whole_source(self):
        listed, _ = tokens.grammar()
        whole = "int first@; void second() { } struct Third { int n; }; " + MARKED[2]
        for marked in [*MARKED[:2], whole]:
            for place in [it.start() for it in re.finditer("@", marked)][::3]:
                before = (marked[:place].replace("@", "") + " ").encode()
                fits = tokens.fitting(before, listed)
                fits -= tokens.NAMES if "NAME" in fits else set()
                wanted = sorted(tokens.TOLD.get(it, it) for it in fits)
                self.assertEqual(sorted(tokens.expected(before, len(before))), wanted, before)

    def test_one_is_worked_out_by_hand(self):
        text = b"int main() { return 1 }"
        self.assertEqual(tokens.expected(text, 22), "; == != < <= > >= + - * / % && ||".split())
        self.assertEqual(tokens.expected(b"", 0), ["int", "void", "struct"])

    def test_a_source_is_cut_before_its_last_declaration(self):
        text = b"int a; struct A { int n; }; void f() { } int g"
        self.assertEqual(tokens.last_declaration(text, len(text)), text.index(b"int g"))
        self.assertEqual(tokens.last_declaration(b"struct A { int n; }", 19), 0)


class LeftOut(unittest.TestCase):
    """What C++ has and this language has not."""

    def listed(self):
        return [it for row in pages.rows("LANGUAGE.md", "Left out") for it in pages.quoted(row[0])]

    def test_each_is_refused_wherever_it_stands(self):
        for token, before in itertools.product(self.listed(), ("", "int main() { ", "int main() { a ", "int main() { a = ")):
            found = tokens.refused_at(refused(before + token + " "))
            self.assertEqual(found, len(before), before + token)

    def test_each_keyword_is_in_the_grammar_or_left_out(self):
        for word in KEYWORDS:
            self.assertNotEqual(word in tokens.grammar()[0], word in self.listed(), word)

    def test_what_stands_at_a_place_is_a_whole_token(self):
        self.assertEqual(tokens.left_out(b"a += b", 2)[0], "+=")
        self.assertIsNone(tokens.left_out(b"a || b", 2))
        self.assertIsNone(tokens.left_out(b"fork", 0))
        self.assertEqual(tokens.left_out(b"\xef\xbb\xbfint a;", 0)[0], "EF BB BF")


class Pages(unittest.TestCase):
    """The tables from which all texts are taken."""

    def numbers(self, page):
        return [number for _, head, group in pages.tables(page) if head[0] == "No" for row in group for number in re.findall(r"\d+", row[0])]

    def test_each_refusal_has_its_mending(self):
        for page in ("LANGUAGE.md", "COMMANDS.md", "TABLES.md"):
            for number in self.numbers(page):
                labels = [label for _, texts in pages.rules(number, page) for label, _ in texts]
                self.assertIn("How it is mended", labels, (page, number))

    def test_each_rule_of_the_language_is_mended_by_an_example(self):
        for number in self.numbers("LANGUAGE.md"):
            texts = [dict(texts) for title, texts in pages.rules(number, "LANGUAGE.md")]
            self.assertTrue(pages.quoted(texts[0]["How it is mended"]) or number == "10", number)


class Json(unittest.TestCase):
    """Lines of JSON, with the keys that the page lists."""

    def printed(self, *words):
        done = subprocess.run([TOP / "ehc", *words], capture_output=True, text=True, cwd=EXAMPLES)
        return [json.loads(line) for line in done.stdout.splitlines()]

    def listed(self):
        return [[key for row in group for key in pages.quoted(row[0])] for title, _, group in pages.tables("COMMANDS.md") if title == "Lines of JSON"]

    def test_of_a_function_are_those_of_dump(self):
        for one in self.printed("show", "--json", "packed_tables.elf"):
            self.assertEqual(list(one), self.listed()[0])
        # docs/TABLES.md reads this image
        self.assertEqual(
            self.printed("show", "--json", "one_frame.elf"),
            [{
                "name": None, "start": 0x1010C, "end": 0x10130, "lsda": 0x100FC,
                "rows": [{"at": 0x1010C, "row": "cfa x2+0"}, {"at": 0x10110, "row": "cfa x2+16 x1=c-8"}],
                "sites": [{"start": 0x1011C, "end": 0x10124, "pad": 0x1012C, "action": 1}],
                "actions": [{"action": 1, "filters": [1]}],
                "types": [{"type": 1, "value": 0, "name": "..."}],
                "lists": [],
            }],
        )

    def test_of_a_file_are_some_of_the_keys(self):
        clean, refused_one = self.printed("audit", "--json", "one_frame.elf", "object.o")
        self.assertEqual([*clean, "number", "place"], ["file", "status", "said", "cies", "frames", "tables", "sites", "number", "place"])
        self.assertEqual(sorted({*clean, *refused_one}), sorted(self.listed()[1]))
        self.assertEqual((refused_one["status"], refused_one["number"], refused_one["place"]), (3, 63, 16))


class Related(unittest.TestCase):
    """The other declaration, with `@` before the place that is refused; places and texts by hand."""

    CASES = [
        (30, "int total; int main() { return @totl; }", ["did you mean `total`?"]),
        (31, "int a;\nint @a;", ["declared before at x:1:5: `int a`"]),
        (31, "void f(int a) {\n  { int a; }\n  int @a = 1; }", ["declared before at x:1:12: `int a`"]),
        (31, "struct A { int n; A(int k) { }\n@A(int j) { } };", ["declared before at x:1:19: `A(int k)`"]),
        (31, "struct A { A(const A& a) { } A(int k) { }\n@A(int j) { } };", ["declared before at x:1:30: `A(int k)`"]),
        (31, "struct A { ~A() { }\n~@A() { } };", ["declared before at x:1:13: `~A()`"]),
        (31, "int f();\nint f() { return 1; }\nint @f() { return 2; }", ["declared before at x:2:5: `int f()`"]),
        (31, "int main() { try { } catch (int e) {\nint @e; } }", ["declared before at x:1:33: `int e`"]),
        (33, "void f(int a, int b) { }\nint main() { @f((1), f(1, 2)); }", ["`f` has 2 arguments here", "declared at x:1:6: `void f(int a, int b)`"]),
        (33, "struct B { B(int k) { } };\nint main() { @B b(1, 2); }", ["`B` has 2 arguments here", "declared at x:1:12: `B(int k)`"]),
        (33, "struct B { B(int k) { } };\nint main() { throw @B(); }", ["`B` has no arguments here", "declared at x:1:12: `B(int k)`"]),
        (33, "struct A { int f(int k) { return k; } };\nint main() { A a; a.@f(); }", ["`f` has no arguments here", "declared at x:1:16: `int f(int k)`"]),
        (33, "void g() { }\nstruct A { void g(int k) { } void h() { @g(); } };", ["`g` has no arguments here", "declared at x:2:17: `void g(int k)`"]),
        (33, "struct B { B(int k) { } };\nstruct D : B { D() : @B(1, 2) { } };", ["`B` has 2 arguments here", "declared at x:1:12: `B(int k)`"]),
        (36, "int main() { int x = 1;\nconst int& r = x;\n@r = 2; }", ["declared at x:2:12: `const int& r`"]),
        (30, "int main() { @wirte_int(1); }", ["did you mean `write_int`?"]),
        (31, "int @exit() { return 1; }", ["`exit` needs no declaration"]),
        (32, "void f() { }\nint main() { { int f = 1; } return @f(); }", ["declared at x:1:6: `void f()`"]),
        (32, "void f() { }\nint main() { { int f = 1; @f(); } }", ["declared at x:2:20: `int f`"]),
        (38, "void main() { }@", ["declared at x:1:6: `void main()`"]),
        (48, "struct B { }; struct A : B { int n; A() : @m(1) { } };", ["what may stand here: `B`, `n`"]),
        (49, "int h() { return 0; }\nint main() { std::set_terminate(@h); }", ["declared at x:1:5: `int h()`"]),
        (37, "int f();\nvoid @f() { }", ["the other one at x:1:5: `int f()`"]),
        (43, "void @f();\nint main() { f(); }", ["used at x:2:14"]),
        (46, "struct B { B(int k) { } };\nstruct D : B { };\nint main() { D @d; }", ["arguments are wanted by x:1:12: `B(int k)`"]),
        (46, "struct B { B(int k) { } };\nstruct D { B b; @D() { } };", ["arguments are wanted by x:1:12: `B(int k)`"]),
        (46, "struct B { B(int k) { } };\nstruct D { B b; D() : @b() { } };", ["arguments are wanted by x:1:12: `B(int k)`"]),
        (46, "struct B { B(int k) { } };\nint main() { throw @B(); }", ["arguments are wanted by x:1:12: `B(int k)`"]),
        (46, "struct E { E() { } E(int k) { } }; struct B { B(int k) { } };\nstruct D { E e; B b; };\nint main() { D @d; }", ["arguments are wanted by x:1:47: `B(int k)`"]),
        (47, "int main() {\n  return @main(); }", ["defined at x:1:5: `int main()`"]),
    ]

    def test_is_named(self):
        for number, marked, wanted in self.CASES:
            text = source.Source("x", marked.replace("@", "").encode())
            self.assertEqual(related.related(text, number, marked.index("@")), wanted, marked)

    def test_is_there_for_each_worked_source(self):
        """In these rows a source has `@` before the place of its refusal, whose number stands in front."""
        ran = 0
        for file in sorted((TOP / "crates/front_rows/data").glob("*.txt")):
            for rule, marked in re.findall(r"^(31|33|36|37|43|46|47) (.*@.*)$", file.read_text(), re.M):
                text = source.Source("x", marked.replace("@", "", 1).encode())
                self.assertTrue(related.related(text, int(rule), marked.index("@")), marked)
                ran += 1
        self.assertGreater(ran, 50)

    def test_nothing_is_said_of_what_is_not_understood(self):
        for number, text in itertools.product(range(30, 50), (b"", b"@", b"}", b"int", b"struct A {", b"f(")):
            related.related(source.Source("x", text), number, 0)


class Shown(unittest.TestCase):
    """A line with its caret."""

    def caret(self, text, at, width=60):
        line, marks = source.Source("x", text).shown(at, width).split("\n")
        self.assertLessEqual(source.columns(line), width)
        self.assertEqual(marks.strip(), "^")
        return line, marks.index("^")

    def test_stands_under_the_place(self):
        self.assertEqual(self.caret(b"int a;\nint b = c;\n", 15), ("int b = c;", 8))
        self.assertEqual(self.caret(b"\tint\ta;", 5), ("        int     a;", 16))
        self.assertEqual(self.caret("/* é */ x".encode(), 9), ("/* é */ x", 8))
        self.assertEqual(self.caret("/* 漢 */ x".encode(), 10), ("/* 漢 */ x", 9))
        self.assertEqual(self.caret(b"a\x1b[2J x\r\n", 6), ("a\ufffd[2J x", 6))

    def test_is_behind_the_last_line_at_the_end(self):
        self.assertEqual(self.caret(b"int main() {\n  f();\n\n", 21), ("  f();", 6))

    def test_a_long_line_is_cut_round_it(self):
        text = b"x" * 500 + b"@" + b"y" * 500
        line, column = self.caret(text, 500)
        self.assertEqual((line[column], line[:4], line[-4:]), ("@", "... ", " ..."))
        line, column = self.caret(text, 3)
        self.assertEqual((column, line[:3], line[-4:]), (3, "xxx", " ..."))
        line, column = self.caret(text, 1000)
        self.assertEqual((line[column], line[:4], line[-1]), ("y", "... ", "y"))


class Narrow(unittest.TestCase):
    """A terminal of few columns."""

    def test_has_whole_words_in_each_line(self):
        self.assertEqual(
            transcripts.shown("./ehc run examples/refused/46_no_default.cc | cat; ./ehc run --trase x", TOP, 70),
            [
                "ehc: source refused: 46 at 116",
                "examples/refused/46_no_default.cc:10:3: no constructor without arguments (rule 46)",
                "  Log() : lines(0) { }",
                "  ^",
                "  arguments are wanted by examples/refused/46_no_default.cc:4:3:",
                "    `File(int n)`",
                "  how it is mended: arguments for the constructor that there is, or a",
                "    constructor without parameters: `A x(1);`, `A() { }`",
                "ehc: usage",
                "  `run` takes no `--trase`: --trace, --in=FILE, --std=V, --max=N,",
                "    --foreign=ITEMS, --count; did you mean `--trace`?",
                "  ./help run",
                "[status 1]",
            ],
        )


class Frames(unittest.TestCase):
    """Frames of images, also where they are damaged."""

    def images(self):
        return [file for file in sorted(EXAMPLES.glob("*.elf")) if program.ran("dump", str(file))[0] == 0]

    def test_are_those_that_dump_prints(self):
        self.assertGreater(len(self.images()), 5)
        for file in self.images():
            wanted = [(one.start, one.end, one.lsda or 0) for one in dumped.frames_in(program.ran("dump", str(file))[1])[1]]
            found = [(one.start, one.end, one.table) for one in frames.regions(elf.Image(file.read_bytes()))]
            self.assertEqual(sorted(found), sorted(wanted), file)

    def test_sites_are_those_that_dump_prints(self):
        image = elf.Image((EXAMPLES / "one_frame.elf").read_bytes())
        one = frames.regions(image)[0]
        # docs/TABLES.md reads the bytes of this record
        self.assertEqual(frames.site(image, image.place(0x10101), one), ("site 0x1011c 0x10124 pad 0x1012c action 1", image.place(0x10105)))

    def test_of_any_bytes_are_none_or_some(self):
        from image_refusals import Refused

        chosen = random.Random(1)
        for file in self.images():
            data = file.read_bytes()
            for _ in range(20):
                damaged = bytearray(data)
                for _ in range(8):
                    damaged[chosen.randrange(len(data))] = chosen.randrange(256)
                one = Refused(chosen.choice([1, 2, 4, 6, 8, 9, 50, 54, 58, 59, 63]), chosen.randrange(len(data)), "x", bytes(damaged))
                one.where(), list(one.about()), one.shown(), one.rule()


class Names(unittest.TestCase):
    """Names of the source in symbols."""

    def test_are_read_as_the_abi_has_them(self):
        for symbol, name in [
            ("_Z1fiRiRKi", "f(int, int&, int const&)"),
            ("_Z1fR1AS0_RKS_", "f(A&, A&, A const&)"),
            ("_ZN4LockC1ERKS_", "Lock::Lock(Lock const&)"),
            ("_ZN4LockD1Ev", "Lock::~Lock()"),
            ("_ZNSt13bad_exceptionC1ERKS_", "std::bad_exception::bad_exception(std::bad_exception const&)"),
            ("_ZN10__cxxabiv111__terminateEPFvvE", "__cxxabiv1::__terminate(void (*)())"),
            ("_ZTISt13bad_exception", "typeinfo for std::bad_exception"),
            ("_ZTIi", "typeinfo for int"),
            ("main", "main"),
            ("_Z", "_Z"),
            ("_Z9x", "_Z9x"),
        ]:
            self.assertEqual(mangled.plain(symbol), name)

    def test_are_those_of_cxxfilt_where_it_is_installed(self):
        with tempfile.TemporaryDirectory() as folder:
            for file in sorted(EXAMPLES.glob("*.cc")):
                subprocess.run([program.program(), "compile", "--std=11", file, f"{folder}/image"], capture_output=True)
                image = elf.Image(pathlib.Path(f"{folder}/image").read_bytes())
                for symbol, name in elf.demangled([it for _, _, it in image.functions] + list(image.objects.values())).items():
                    self.assertEqual(mangled.plain(symbol), name)


class Words(unittest.TestCase):
    """Which words are none of a command."""

    PARTS = ["run", "exec", "gen", "harts", "compile", "pack", "frames", "x", "y", "-", "--", "7", "0", "2001", "--trace", "--trace=", "--in=x", "--in", "--in=", "--std=11",
             "--std=12", "--std", "--max=5", "--max=05", "--max=1099511627776", "--max=1099511627777", "--max", "--count", "--foreign=v5,r7*3", "--foreign=v-0",
             "--foreign=v-5*0", "--foreign=r-1", "--foreign=v2147483648", "--foreign=v1*1000001", "--foreign=", "--foreign", "-x", "--tr", "--count=1", ""]

    def test_a_fault_is_found_where_the_program_finds_one(self):
        chosen = random.Random(2)
        for _ in range(600):
            words = [chosen.choice(self.PARTS[:8]), *chosen.choices(self.PARTS[5:], k=chosen.randrange(5))]
            with tempfile.TemporaryDirectory() as folder:
                done = subprocess.run([program.program(), *words], capture_output=True, text=True, cwd=folder, stdin=subprocess.DEVNULL)
            self.assertEqual(usage.Words(words).fault is not None, done.stderr == "ehc: usage\n", (words, done.stderr, usage.Words(words).fault))


    def test_an_option_may_stand_as_often_as_the_page_says(self):
        many = [f"--foreign=v{it}" for it in range(65)]
        self.assertIsNone(usage.Words(["run", "x", *many[:64]]).fault)
        self.assertEqual(usage.Words(["run", "x", *many]).fault, "`run` wants 0 to 64 times `--foreign=ITEMS`, and has 65")
        self.assertEqual(usage.Words(["harts", "x", "y"]).fault, "`harts` wants 1 to 8 times `--in=FILE`, and has none")


class Completion(unittest.TestCase):
    """What bash completes."""

    def completed(self, *words):
        script = f'. "{TOP}/shell/ehc.bash"; COMP_WORDS=("$@"); COMP_CWORD=$(($# - 1)); _ehc; printf "%s\\n" "${{COMPREPLY[@]}}"'
        return subprocess.run(["bash", "-c", script, "bash", *words], capture_output=True, text=True, cwd=EXAMPLES).stdout.split()

    def test_takes_words_from_the_page(self):
        self.assertEqual(self.completed("./ehc", "co"), ["compile"])
        self.assertEqual(self.completed("./ehc", "compile", "--"), ["--std="])
        self.assertEqual(self.completed("./ehc", "run", "--std", "="), ["03", "11"])
        self.assertEqual(self.completed("./ehc", "run", "--std", "=", "1"), ["11"])
        self.assertEqual(self.completed("./ehc", "run", "smallest.c"), ["smallest.cc"])
        self.assertEqual(self.completed("./ehc", "run", "--in", "=", "six"), ["six.txt"])


def choose():
    """Has the launcher choose the program once, so that it need not do so for each run."""
    subprocess.run([TOP / "ehc", "gen", "1"], capture_output=True, check=True)
    chosen = TOP / "out/chosen"
    if chosen.exists():
        os.environ["EHC_PROGRAM"] = str(TOP / chosen.read_text().strip())


if __name__ == "__main__":
    choose()
    unittest.main(verbosity=0)
