"""A reader of exception tables of its own, by the text of the LSB Core specification and of the Itanium C++ ABI, and what `ehc dump` has otherwise.

It reads a table at its address out of the segments that are loaded, as a personality routine would, and tests nothing: the tables are those of images that
`ehc check` has found clean.
"""
import struct

LEFT_OUT = 0xFF
FORMATS = {0x0: "<Q", 0x2: "<H", 0x3: "<I", 0x4: "<Q", 0xA: "<h", 0xB: "<i", 0xC: "<q"}


class Memory:
    """The bytes of the segments of an ELF file."""

    def __init__(self, file):
        data = file.read_bytes()
        begin, (size, count) = struct.unpack_from("<Q", data, 32)[0], struct.unpack_from("<HH", data, 54)
        self.segments = []
        for at in range(begin, begin + size * count, size):
            kind, _, offset, address, _, in_file, whole, _ = struct.unpack_from("<IIQQQQQQ", data, at)
            if kind == 1:
                self.segments.append((address, address + whole, data[offset : offset + in_file]))

    def bytes(self, address, count):
        for first, end, data in self.segments:
            if first <= address < end:
                return data[address - first : address - first + count].ljust(count, b"\0")
        raise LookupError(hex(address))


class Reader:
    def __init__(self, memory, at):
        self.memory, self.at = memory, at

    def fixed(self, form):
        size = struct.calcsize(form)
        value = struct.unpack(form, self.memory.bytes(self.at, size))[0]
        self.at += size
        return value

    def leb(self, signed=False):
        value = shift = 0
        while True:
            group = self.fixed("<B")
            value |= (group & 0x7F) << shift
            shift += 7
            if group < 0x80:
                return value - (1 << shift) if signed and group & 0x40 else value

    def number(self, encoding):
        """A number of the encoding's format alone."""
        form = encoding & 0xF
        return self.leb(form == 9) if form in (1, 9) else self.fixed(FORMATS[form])

    def pointer(self, encoding):
        begin = self.at
        value = self.number(encoding)
        if value and encoding & 0x70 == 0x10:
            value += begin
        if value and encoding & 0x80:
            value = Reader(self.memory, value % 2**64).fixed("<Q")
        return value % 2**64


class Table:
    """The lines of `ehc dump` for a table."""

    def __init__(self, memory, at, start):
        self.memory, reader = memory, Reader(memory, at)
        pads_from = reader.fixed("<B")
        self.start = start
        self.pads = start if pads_from == LEFT_OUT else reader.pointer(pads_from)
        self.encoding = reader.fixed("<B")
        self.base = None
        if self.encoding != LEFT_OUT:
            offset = reader.leb()
            self.base = reader.at + offset
        sites, length = reader.fixed("<B"), reader.leb()
        self.actions = reader.at + length
        self.sites = []
        while reader.at < self.actions:
            begin, size, pad = (reader.number(sites) for _ in range(3))
            self.sites.append((start + begin, start + begin + size, pad and self.pads + pad, reader.leb()))

    def chain(self, action):
        filters, at = [], self.actions + action - 1
        while True:
            reader = Reader(self.memory, at)
            filters.append(reader.leb(signed=True))
            displaced = reader.at
            displacement = reader.leb(signed=True)
            if displacement == 0:
                return filters
            at = displaced + displacement

    def list(self, filter_):
        reader, indices = Reader(self.memory, self.base - filter_ - 1), []
        while index := reader.leb():
            indices.append(index)
        return indices

    def type(self, index):
        form = self.encoding & 0xF
        return Reader(self.memory, self.base - index * struct.calcsize(FORMATS[form])).pointer(self.encoding)

    def lines(self):
        chains = {action: self.chain(action) for *_, action in self.sites if action}
        filters = {it for chain in chains.values() for it in chain}
        lists = {it: self.list(it) for it in filters if it < 0}
        types = {it for it in filters if it > 0} | {it for indices in lists.values() for it in indices}
        yield from (f"site {a:#x} {b:#x} pad {pad:#x} action {action}" for a, b, pad, action in self.sites)
        yield from (f"action {action}: {' '.join(map(str, chains[action]))}" for action in sorted(chains))
        yield from (f"type {index}: {self.type(index):#x}" for index in sorted(types))
        yield from (f"list {it}: {' '.join(map(str, lists[it]))}".rstrip() for it in sorted(lists, reverse=True))


def tables_of(file, dumped):
    """Each table that `dump` has otherwise: of functions by their extents, with the lines from `lsda` on."""
    memory, found = Memory(file), []
    for (start, _), lines in dumped:
        wanted = list(Table(memory, int(lines[0].split()[1], 16), start).lines())
        if [it.rstrip() for it in lines[1:]] != wanted:
            found.append(f"table of {start:#x}: {[it for it in lines[1:] if it not in wanted][:3]} and not {[it for it in wanted if it not in lines][:3]}")
    return found
