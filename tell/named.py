"""The names that the symbol table of an image has for functions and types, and its tables told by them."""
import difflib

from elf import demangled

OF_TYPES = "typeinfo for "


class Names:
    """Functions and types by their addresses, as the source has them."""

    def __init__(self, image, frames):
        self.image, self.symbols = image, {}
        for start, _, name in image.functions:
            self.symbols.setdefault(start, []).append(name)
        self.types = {(frame.start, number): self.type_symbol(frame, number, value) for frame in frames for number, value in frame.types.items()}
        self.plain = demangled([name for group in self.symbols.values() for name in group] + list(self.types.values()))

    def type_symbol(self, frame, number, value):
        """The symbol of a type's record: at its address, or, where the loader fills the word that leads to it, of its relocation."""
        return self.image.objects.get(value) if value else self.image.imported.get(self.image.type_word(frame.lsda, number))

    def all_of(self, start):
        """Each name of the function that begins at an address, as the symbol and as in the source."""
        symbols = self.symbols.get(start, [])
        return [*symbols, *(self.plain.get(it, it) for it in symbols)]

    def function(self, start):
        symbols = self.symbols.get(start)
        return self.plain.get(symbols[0], symbols[0]) if symbols else None

    def nearest(self, word):
        known = {name.split("(")[0] for name in self.plain.values() if name}
        close = difflib.get_close_matches(word, known, 1)
        return f"; did you mean `{close[0]}`?" if close else ""

    def type(self, number, frame):
        """The name of a type entry; `...` for the entry 0 of `catch (...)`, and None where nothing names it."""
        symbol = self.types.get((frame.start, number))
        if symbol:
            return self.plain.get(symbol, symbol).replace(OF_TYPES, "")
        return "..." if frame.types.get(number) == 0 and not self.image.type_word(frame.lsda, number) else None

    def word(self, number, frame):
        """Where the word stands that the loader fills for a type entry, if that is how it is."""
        word = self.image.type_word(frame.lsda, number) if frame.types.get(number) == 0 else None
        return f"*0x{word:x}" if word else None

    def told_type(self, number, frame):
        return self.type(number, frame) or self.word(number, frame) or f"0x{frame.types.get(number, 0):x}"

    def filter(self, number, frame):
        """What a filter of a chain is for."""
        if number == 0:
            return "cleanup"
        if number > 0:
            return f"catch {self.told_type(number, frame)}"
        return f"throw({', '.join(self.told_type(it, frame) for it in frame.lists.get(number, []))})"

    def chain(self, action, frame):
        return ", ".join(self.filter(it, frame) for it in frame.actions.get(action, [0]))

    def site(self, site, frame):
        start, end, pad, action = site
        told = f"pad 0x{pad:x}, {self.chain(action, frame)}" if pad else "passes by"
        return f"site 0x{start:x} 0x{end:x}: {told}"
