"""Random programs that throw, in the language that ehc and other compilers have in common, each of a kind and by a seed.

A program has classes with bases, parts, functions and constructors that throw, and copy constructors that tell of themselves. Its functions call those before
them, one calls itself, one throws again what is handled, one throws what it has by reference. Objects stand in every scope, loops are left in each way, handlers
have each form. Besides, by kind:

plain        nothing else
listed       specifications, and unexpected and terminate handlers
foreign      modules of another language, whose exceptions only `catch (...)` takes
cancelled    a forced unwind, and no `catch (...)`, beside which g++ and clang write no cleanup
destroyed    destructors that throw while nothing travels
noexcept     functions that are noexcept, by the standard of 2011

What the standard leaves open does not occur: no expression has two calls, no destructor throws while an exception travels, no copy constructor throws, each int
is set, and none leaves its range. A global counts calls down, so that each program ends.
"""
import random

KINDS = ["plain", "listed", "foreign", "cancelled", "destroyed", "noexcept"]
MODULES = ["--foreign=v3,r7,v1,r2*3,v9*9", "--foreign=r5,v2*9"]


class Class:
    """A class: its number, its base, and the classes of its parts."""

    def __init__(self, number, base, parts):
        self.name, self.number, self.base, self.parts = f"C{number}", number, base, parts

    def is_first(self):
        """Whether it is the first class or one that stands on that."""
        return self.number == 1 or self.base is not None and self.base.is_first()


class Writer:
    def __init__(self, kind, seed):
        self.kind, self.chance = kind, random.Random(f"{kind} {seed}")
        self.classes, self.functions = [], []
        self.ints, self.objects = [], []
        self.depth, self.handled, self.looped, self.number = 0, False, False, 0

    def one(self, *of):
        return self.chance.choice(of)

    def likely(self, chances, of):
        return self.chance.randrange(of) < chances

    def fresh(self, letter):
        self.number += 1
        return f"{letter}{self.number}"

    # expressions

    def value(self, depth=0):
        pick = self.chance.randrange(5)
        if depth > 1 or pick < 2 or not self.ints:
            return str(self.chance.randrange(100)) if pick or not self.ints else self.chance.choice(self.ints)
        if pick == 2:
            return self.chance.choice(self.ints)
        return f"({self.value(depth + 1)} {self.one('+', '-', '*', '<', '==')} {self.value(depth + 1)}) % 100"

    def test(self):
        return f"{self.value(1)} % {self.chance.randrange(2, 5)} {self.one('==', '!=')} {self.chance.randrange(2)}"

    def made(self):
        it = self.chance.choice(self.classes)
        return it, f"{it.name}({self.value()})"

    # classes

    def class_text(self, it):
        start = [f"{it.base.name}(k + 1)"] if it.base else []
        parts = [(f"p{i}", part) for i, part in enumerate(it.parts)]
        start += [f"{name}(k + {i + 2})" for i, (name, _) in enumerate(parts)] + ["n(k)"]
        copied = ([f"{it.base.name}(o)"] if it.base else []) + [f"{name}(o.{name})" for name, _ in parts] + ["n(o.n)"]
        throws = self.one("", self.thrown_in_class(it, 11))
        lines = [f"struct {it.name}{f' : {it.base.name}' if it.base else ''} {{", *(f"  {part.name} {name};" for name, part in parts), "  int n;"]
        lines.append(f"  {it.name}(int k){self.allowed(it.number)} : {', '.join(start)} {{ write_int({it.number}000 + k % 100); {throws} }}")
        lines.append(f"  int told(int k){self.allowed(it.number)} {{ {it.name} own(k); n = n % 50 + own.n % 50; {self.thrown_in_class(it, 7)} return n; }}")
        if self.likely(1, 2):
            lines.append(f"  {it.name}(const {it.name}& o) : {', '.join(copied)} {{ write_int({it.number}500 + n % 100); }}")
        lines.append(f"  ~{it.name}() {self.destructor(it)}")
        return "\n".join([*lines, "};"])

    def thrown_in_class(self, it, one_of):
        """Of so many arguments one throws: an int, or a class that stands before, so that no constructor makes its own class without end."""
        before = self.classes[: it.number - 1]
        what = f"{self.chance.choice(before).name}(k + 1)" if before and self.likely(1, 2) else "k"
        return f"if (k % {one_of} == {self.chance.randrange(one_of)}) throw {what};"

    def destructor(self, it):
        tells = f"write_int({it.number}700 + n % 100);"
        if self.kind != "destroyed":
            return f"{{ {tells} }}"
        return f"{{ {tells} if (std::uncaught_exception() == 0) if (n % 5 == {self.chance.randrange(5)}) throw n; }}"

    # statements

    def statement(self):
        kinds = ["write", "set", "int_", "object_", "object_", "call", "call", "throw"]
        if self.depth < 3:
            kinds += ["if_", "while_", "try_", "try_", "try_", "block"]
        if self.looped:
            kinds += ["jump"]
        if self.objects:
            kinds += ["told", "change"]
        if self.handled:
            kinds += ["again", "look"]
        kinds += {"foreign": ["module", "module"], "cancelled": ["cancel"], "listed": ["handlers"]}.get(self.kind, [])
        return getattr(self, self.chance.choice(kinds))()

    def block(self, most=4):
        ints, objects = list(self.ints), list(self.objects)
        self.depth += 1
        text = "\n".join(self.statement() for _ in range(self.chance.randrange(1, most + 1)))
        self.depth -= 1
        self.ints, self.objects = ints, objects
        return f"{{\n{text}\n}}"

    def write(self):
        return f"write_int({self.value()});"

    def set(self):
        return f"{self.chance.choice(self.ints)} = {self.value()};" if self.ints else self.write()

    def int_(self):
        value, name = self.value(), self.fresh("x")
        self.ints.append(name)
        return f"int {name} = {value};"

    def object_(self):
        it, name = self.chance.choice(self.classes), self.fresh("o")
        if self.objects and self.likely(1, 4):
            it, copied = self.chance.choice(self.objects)
            text = f"{it.name} {name}({copied});"
        else:
            text = f"{it.name} {name}({self.value()});"
        self.objects.append((it, name))
        return text

    def call(self):
        if not self.functions:
            return self.write()
        text = f"{self.chance.choice(self.functions)}({self.value()})"
        return f"{self.chance.choice(self.ints)} = {text};" if self.ints and self.likely(1, 2) else f"write_int({text});"

    def told(self):
        return f"write_int({self.chance.choice(self.objects)[1]}.told({self.value()}));"

    def change(self):
        fit = [name for it, name in self.objects if it.is_first()]
        return f"change({self.chance.choice(fit)}, {self.value()});" if fit else self.told()

    def throw(self):
        what = self.one(self.value(), self.made()[1], self.made()[1])
        if self.objects and self.likely(1, 3):
            what = self.chance.choice(self.objects)[1]
        return f"throw {what};" if self.likely(1, 6) else f"if ({self.test()}) throw {what};"

    def again(self):
        return self.one("throw;", f"if ({self.test()}) throw;")

    def look(self):
        return f"write_int(look({self.value()}));"

    def jump(self):
        return f"if ({self.test()}) {self.one('break;', 'continue;', f'return {self.value()};')}"

    def if_(self):
        other = f" else {self.block(2)}" if self.likely(1, 2) else ""
        return f"if ({self.test()}) {self.block(3)}{other}"

    def while_(self):
        name, before, self.looped = self.fresh("i"), self.looped, True
        text = f"int {name} = 0;\nwhile ({name} < {self.chance.randrange(1, 4)}) {{\n{name} = {name} + 1;\n{self.block(3)}\n}}"
        self.looped = before
        return text

    def try_(self):
        # a loop round the block may be left out of it
        body = self.block()
        before, self.handled = self.handled, True
        handlers = "\n".join(self.handler(kind) for kind in self.caught())
        self.handled = before
        return f"try {body}\n{handlers}"

    def caught(self):
        """The kinds of a block's handlers; `catch (...)` stands last."""
        kinds = [self.one("int e", "int e", "int") for _ in range(self.likely(1, 2))]
        kinds += [f"{it.name}{self.one('& e', '& e', ' e', '', '&')}" for it in self.chance.sample(self.classes, self.chance.randrange(0, 3))]
        kinds = [f"const {it}" if it[0] == "C" and "&" in it and self.likely(1, 3) else it for it in kinds]
        self.chance.shuffle(kinds)
        return kinds + ["..."] * (self.kind != "cancelled" and (not kinds or self.likely(1, 3))) or ["int e"]

    def handler(self, kind):
        ints, name, shows = list(self.ints), self.fresh("e"), ""
        if kind == "int e":
            shows = f"write_int({name});\n"
            self.ints = [*ints, name]
        elif kind.endswith(" e"):
            shows = f"write_int({name}.n);\n"
            if "&" in kind and not kind.startswith("const") and self.likely(1, 2):
                shows += f"{name}.n = {name}.n % 50 + 1;\n"
        body = self.block(2)
        self.ints = ints
        return f"catch ({kind[:-1] + name if kind.endswith(' e') else kind}) {{\n{shows}{body}\n}}"

    def module(self):
        return f"write_int(__module({self.chance.randrange(3)}, {self.value()}));"

    def cancel(self):
        return f"if ({self.value(1)} % 7 == {self.chance.randrange(7)}) __cancel({self.chance.randrange(256)});"

    def handlers(self):
        return self.one("std::set_unexpected(u0);", "std::set_unexpected(u1);", "std::set_unexpected(u2);", "std::set_terminate(t0);", "std::set_terminate(t1);")

    # functions and the whole

    def allowed(self, known=None):
        """A specification, of int, std::bad_exception and the classes that are known there."""
        if self.kind == "noexcept" and self.likely(1, 9):
            return self.one(" noexcept", " noexcept(true)", " noexcept(false)")
        if self.kind != "listed" or self.likely(1, 2):
            return ""
        types = self.chance.sample(["int", "std::bad_exception", *(it.name for it in self.classes[:known])], self.chance.randrange(0, 3))
        return f" throw({', '.join(types)})"

    def function(self, number):
        self.ints, self.objects, self.handled, self.looped = ["a"], [], False, False
        allowed, body, result = self.allowed(), self.block(5), self.value()
        self.functions.append(f"f{number}")
        return f"int f{number}(int a){allowed} {{\nfuel = fuel - 1;\nif (fuel < 0) return 1;\n{body}\nreturn {result};\n}}"

    def fixed(self):
        """Functions of every program: one that goes deep before it throws, one that throws again what is handled, and one that throws what it has by reference."""
        it, made = self.made()
        deep = f"int deep(int a) {{ {it.name} o(a % 50); if (a < 1) throw {self.one(str(7), made, 'o')}; return deep(a - 1); }}"
        rest = self.one("", "catch (...) { throw; }") if self.kind != "cancelled" else ""
        look = f"int look(int a) {{ try {{ throw; }} catch (int e) {{ return e; }} catch ({self.classes[0].name}& e) {{ return e.n; }} {rest} return a; }}"
        first = self.classes[0].name
        change = f"void change({first}& r, int k) {{ r.n = k; if (k % 5 == {self.chance.randrange(5)}) throw r; write_int(r.n); }}"
        lines = [deep, look, change]
        if self.kind == "listed":
            lines += [f"void u0() {{ write_int(1); throw {self.value()}; }}", f"void u1() {{ write_int(2); throw {self.made()[1]}; }}"]
            lines += ["void u2() { write_int(3); throw; }", f"void t0() {{ write_int(4); exit({self.chance.randrange(256)}); }}"]
            lines += ["void t1() { write_int(5); try { throw; } catch (int e) { write_int(e); } }"]
        return "\n".join(lines)

    def program(self):
        for number in range(1, self.chance.randrange(3, 7)):
            base = self.chance.choice(self.classes) if self.classes and self.likely(2, 3) else None
            parts = [self.chance.choice(self.classes) for _ in range(self.chance.randrange(0, 3))] if self.classes else []
            self.classes.append(Class(number, base, parts))
        texts = ["int fuel = 60;", *(self.class_text(it) for it in self.classes), self.fixed()]
        texts += [self.function(number) for number in range(self.chance.randrange(2, 6))]
        texts.append(self.main())
        return "\n".join(texts) + "\n"

    def guarded(self, text):
        """The statements in a block that takes all that comes out of them; of forty one does not."""
        if self.likely(1, 40):
            return f"{{\n{text}\n}}"
        if self.kind != "cancelled":
            return f"try {{\n{text}\n}}\ncatch (...) {{\nwrite_int({self.value()});\n}}"
        each = "\n".join(f"catch ({it.name}& e) {{\nwrite_int(e.n);\n}}" for it in reversed(self.classes))
        return f"try {{\n{text}\n}}\ncatch (int e) {{\nwrite_int(e);\n}}\n{each}"

    def main(self):
        self.ints, self.objects, self.handled, self.looped = [], [], False, False
        begin = [self.handlers() for _ in range(2)] if self.kind == "listed" else []
        calls = [f"write_int({it}({self.value()}));" for it in self.functions] + [f"write_int(deep({self.chance.randrange(6)}));"]
        parts = [self.guarded(it) for it in [*calls, self.try_(), *calls[::-1], self.block(3)]]
        return "int main() {\n" + "\n".join([*begin, *parts, f"return {self.chance.randrange(256)};"]) + "\n}"


def program(kind, seed):
    return Writer(kind, seed).program()
