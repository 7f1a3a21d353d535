"""The names of the source in symbols, by the Itanium C++ ABI, 5.1, as far as the functions and classes of a source of `./ehc` have them."""

BUILTIN = {"v": "void", "i": "int", "b": "bool", "c": "char", "j": "unsigned int", "l": "long", "m": "unsigned long"}
SPECIAL = {"TI": "typeinfo for ", "TS": "typeinfo name for ", "TV": "vtable for "}
CONSTRUCTORS, DESTRUCTORS = [f"C{it}" for it in range(1, 4)], [f"D{it}" for it in range(3)]
DIGITS = "0123456789ABCDEFGHIJKLMNOPQRSTUVWXYZ"


class Unknown(Exception):
    """The symbol has a form that is not read here."""


class Mangled:
    """Reads a symbol from left to right; `known` is what a later `S_`, `S0_`, .. stands for."""

    def __init__(self, symbol):
        self.text, self.at, self.known = symbol, 2, []

    def take(self, *words):
        """Takes the first of some texts that stands here."""
        for word in words:
            if self.text.startswith(word, self.at):
                self.at += len(word)
                return word
        return ""

    def keep(self, name):
        self.known.append(name)
        return name

    def source_name(self):
        digits = ""
        while self.text[self.at : self.at + 1].isdigit():
            digits, self.at = digits + self.text[self.at], self.at + 1
        if not digits or self.at + int(digits) > len(self.text):
            raise Unknown(self.text)
        self.at += int(digits)
        return self.text[self.at - int(digits) : self.at]

    def kept(self):
        """What stands behind an `S`."""
        digits = ""
        while not self.take("_"):
            digits += self.text[self.at : self.at + 1]
            self.at += 1
            if not digits or digits[-1] not in DIGITS or self.at > len(self.text):
                raise Unknown(self.text)
        number = int(digits, 36) + 1 if digits else 0
        if number >= len(self.known):
            raise Unknown(self.text)
        return self.known[number]

    def nested(self):
        """The parts of a name between `N` and `E`; all but the last may be named again."""
        parts = []
        while not self.take("E"):
            before = "::".join(parts)
            if before not in ("", "std", *self.known):
                self.keep(before)
            if self.take("St"):
                parts.append("std")
            elif self.take("S"):
                parts.append(self.kept())
            elif self.take(*CONSTRUCTORS):
                parts.append(parts[-1].split("::")[-1])
            elif self.take(*DESTRUCTORS):
                parts.append("~" + parts[-1].split("::")[-1])
            else:
                parts.append(self.source_name())
        return "::".join(parts)

    def name(self):
        if self.take("N"):
            return self.nested()
        return "std::" + self.source_name() if self.take("St") else self.source_name()

    def type(self):
        builtin = self.take(*BUILTIN)
        if builtin:
            return BUILTIN[builtin]
        if self.take("R"):
            return self.keep(self.type() + "&")
        if self.take("K"):
            return self.keep(self.type() + " const")
        if self.take("PF"):
            result, parameters = self.type(), self.parameters("E")
            self.keep(f"{result} ({parameters})")
            return self.keep(f"{result} (*)({parameters})")
        if self.take("P"):
            return self.keep(self.type() + "*")
        if not self.text.startswith("St", self.at) and self.take("S"):
            return self.kept()
        return self.keep(self.name())

    def parameters(self, end):
        found = []
        while not (self.take(end) if end else self.at >= len(self.text)):
            found.append(self.type())
        return "" if found == ["void"] else ", ".join(found)

    def read(self):
        special = self.take(*SPECIAL)
        if special:
            return SPECIAL[special] + self.type()
        name = self.name()
        return f"{name}({self.parameters('')})" if self.at < len(self.text) else name


def plain(symbol):
    """The name of the source; of a symbol with a form that is not read here, the symbol itself."""
    try:
        return Mangled(symbol).read() if symbol.startswith("_Z") else symbol
    except (Unknown, RecursionError):
        return symbol
