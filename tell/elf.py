"""What an ELF file for 64 bits says of its places: sections, addresses and functions (System V ABI, "Object Files")."""
import bisect
import shutil
import struct
import subprocess

from mangled import plain

PT_LOAD, PT_GNU_EH_FRAME = 1, 0x6474E550
SHT_SYMTAB, SHT_RELA, SHT_NOBITS, SHT_DYNSYM = 2, 4, 8, 11
STT_OBJECT, STT_FUNC = 1, 2
# The form of type entries that code for any place in memory has: the address of a word, four bytes relative to the entry.
INDIRECT = 0x9B
DAMAGED = (struct.error, IndexError, ValueError, OverflowError)


class Image:
    """What an ELF file says of a place in it, as far as its headers can be read."""

    def __init__(self, data):
        self.data, self.sections, self.loads, self.functions, self.objects, self.imported = data, [], [], [], {}, {}
        self.eh_frame_header = None
        for part in (self.read_programs, self.read_sections):
            try:
                part()
            except DAMAGED:
                pass
        self.functions.sort()

    def read_programs(self):
        first, count = struct.unpack_from("<Q", self.data, 32)[0], struct.unpack_from("<H", self.data, 56)[0]
        for i in range(count):
            kind, _, place, address, _, size, *_ = struct.unpack_from("<IIQQQQQQ", self.data, first + 56 * i)
            if kind == PT_LOAD:
                self.loads.append((place, size, address))
            elif kind == PT_GNU_EH_FRAME and self.eh_frame_header is None:
                self.eh_frame_header = address

    def read_sections(self):
        first = struct.unpack_from("<Q", self.data, 40)[0]
        count, names = struct.unpack_from("<HH", self.data, 60)
        if not first:
            return
        heads = [struct.unpack_from("<IIQQQQIIQQ", self.data, first + 64 * i) for i in range(count)]
        for head in heads:
            if head[1] not in (0, SHT_NOBITS):
                self.sections.append((head[4], head[5], self.text(heads[names][4] + head[0])))
        tables = [head for head in heads if head[1] == SHT_SYMTAB] or [head for head in heads if head[1] == SHT_DYNSYM]
        for head in tables[:1]:
            self.read_symbols(head, heads[head[6]][4])
        for head in heads:
            if head[1] == SHT_RELA and head[6] < len(heads) and heads[head[6]][1] == SHT_DYNSYM:
                self.read_relocations(head, heads[head[6]], heads)

    def read_symbols(self, table, strings):
        for at in range(table[4], table[4] + table[5], 24):
            name, info, _, section, value, size = struct.unpack_from("<IBBHQQ", self.data, at)
            if section and info & 15 == STT_FUNC:
                self.functions.append((value, size, self.text(strings + name)))
            elif section and info & 15 == STT_OBJECT and value:
                self.objects.setdefault(value, self.text(strings + name))

    def read_relocations(self, table, symbols, heads):
        """Words that the loader fills with the address of a symbol, by their own addresses."""
        strings = heads[symbols[6]][4]
        for at in range(table[4], table[4] + table[5], 24):
            word, info, _ = struct.unpack_from("<QQq", self.data, at)
            if info >> 32:
                name = struct.unpack_from("<I", self.data, symbols[4] + 24 * (info >> 32))[0]
                self.imported[word] = self.text(strings + name)

    def text(self, at):
        return self.data[at : self.data.index(b"\0", at)].decode(errors="replace")

    def address(self, at):
        return next((address + at - place for place, size, address in self.loads if place <= at < place + size), None)

    def place(self, address):
        """The place in the file of what is loaded at an address."""
        return next((place + address - first for place, size, first in self.loads if first <= address < first + size), None)

    def section(self, at):
        """The section that has a place, and how far in."""
        return next(((name, at - place) for place, size, name in self.sections if place <= at < place + size), None)

    def function(self, address):
        """The name of the function that has an address; one without a size goes up to the next."""
        number = bisect.bisect_right(self.functions, (address, 1 << 64, "")) - 1
        while number >= 0 and self.functions[number][1] == 0 and number and self.functions[number - 1][0] == self.functions[number][0]:
            number -= 1
        if number < 0:
            return None
        value, size, name = self.functions[number]
        return name if size == 0 or address < value + size else None

    def bytes_at(self, address, count):
        """So many bytes from an address on, as they stand in the file."""
        place = self.place(address)
        return self.data[place : place + count] if place is not None else b""


    def type_word(self, table, number):
        """The address of the word that an indirect type entry of an exception table leads to, or None where the entry is 0 or leads to no word."""
        try:
            at = self.place(table)
            first, form = self.data[at], self.data[at + 1]
            if first != 0xFF or form != INDIRECT:
                return None
            offset, shift, at = 0, 0, at + 2
            while True:
                offset |= (self.data[at] & 0x7F) << shift
                at, shift = at + 1, shift + 7
                if self.data[at - 1] < 0x80:
                    break
            entry = at + offset - 4 * number
            value = struct.unpack_from("<i", self.data, entry)[0]
            return (self.address(entry) + value) % 2**64 if value else None
        except (*DAMAGED, TypeError):
            return None


def demangled(names):
    """Each name, with its name in the source: as c++filt says it where that is installed."""
    names = sorted({name for name in names if name and "\n" not in name})
    tool = shutil.which("c++filt") or shutil.which("llvm-cxxfilt")
    if tool and names:
        done = subprocess.run([tool], input="\n".join(names), capture_output=True, text=True)
        if done.returncode == 0:
            return dict(zip(names, done.stdout.splitlines()))
    return {name: plain(name) for name in names}
