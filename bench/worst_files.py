"""The worst files of each kind that the limits of `ehc` allow, by about how many bytes they have."""
import struct

BASE, CODE = 0x1_0000, b"\x13\0\0\0" * 4
LOAD, EH_FRAME = 1, 0x6474E550


def uleb(value):
    out = bytearray()
    while value > 0x7F:
        out.append(value & 0x7F | 0x80)
        value >>= 7
    out.append(value)
    return bytes(out)


def part(body):
    body += b"\0" * (-len(body) % 4)
    return struct.pack("<I", len(body)) + body


def cie(moves=b""):
    """Tables and locations are relative to their fields, in four bytes."""
    return part(b"\0\0\0\0\x01zLR\0\x04\x78\x01\x02\x1b\x1b\x0c\x02\0" + moves)


class Frames:
    """The bytes of .eh_frame from an address on, and a row for each FDE."""

    def __init__(self, address):
        self.address, self.pieces, self.size, self.cie, self.rows = address, [], 0, 0, []

    def put(self, piece):
        self.pieces.append(piece)
        self.size += len(piece)

    def common(self, moves=b""):
        self.cie = self.size
        self.put(cie(moves))

    def function(self, start, length, table=0, moves=b""):
        here = self.address + self.size
        self.rows.append((start, here))
        named = table - (here + 17) if table else 0
        self.put(part(struct.pack("<IiIBi", self.size + 4 - self.cie, start - (here + 8), length, 4, named) + moves))

    def whole(self):
        return b"".join([*self.pieces, b"\0\0\0\0"])


def image(body, others=b"", count=0, claimed=None):
    """A file of one segment with this body behind the program headers, which begins with the frames' header; other headers stand before its own."""
    begin = 64 + 56 * (count + 2)
    size = begin + len(body)
    head = b"\x7fELF\x02\x01\x01" + bytes(9)
    head += struct.pack("<HHIQQQIHHHHHH", 2, 243, 1, BASE, 64, 0, 0, 64, 56, count + 2, 0, 0, 0)
    own = struct.pack("<IIQQQQQQ", LOAD, 5, 0, BASE, BASE, size, claimed or size, 4096)
    frames = struct.pack("<IIQQQQQQ", EH_FRAME, 4, begin, BASE + begin, BASE + begin, 8, 8, 4)
    return head + others + own + frames + body


def begin_of(count=0):
    return BASE + 64 + 56 * (count + 2)


def without_rows():
    """A header without a table, whose frames stand right behind it."""
    return b"\x01\x1b\xff\xff" + struct.pack("<i", 4)


def with_rows(rows, header):
    front = b"\x01\x1b\x03\x3b" + struct.pack("<iI", 8 + 8 * len(rows), len(rows))
    return front + b"".join(struct.pack("<ii", start - header, fde - header) for start, fde in rows)


def one_table(table, others=b"", count=0):
    """An image of one function, which has this exception table; its code stands at the end."""
    frames = Frames(begin_of(count) + 8)
    frames.common()
    tables = frames.address + frames.size + 24 + 4
    frames.function(tables + len(table), 0x1000_0000, tables)
    body = without_rows() + frames.whole()
    assert begin_of(count) + len(body) == tables
    return image(body + table + CODE, others, count)


def table_of(sites, actions, types=b"\xff"):
    return b"\xff" + types + b"\x01" + uleb(len(sites)) + sites + actions


def two_chains(size):
    """Sites name two long chains in turn."""
    return one_table(table_of(b"\0\0\x04\x01\0\0\x04\x03" * (size // 16), b"\0\x01" * (size // 4) + b"\0\0"))


def loops(size):
    """Sites name two chains in turn that come back to their one record."""
    return one_table(table_of(b"\0\0\x04\x01\0\0\x04\x03" * (size // 8), b"\0\x7f\0\x7f"))


def lists(size):
    """Each record of a chain names the same long list."""
    actions, indices = b"\x7f\x01" * (size // 4) + b"\x7f\0", b"\x01" * (size // 2) + b"\0"
    sites = b"\0\0\x04\x01"
    behind = b"\x01" + uleb(len(sites)) + sites + actions + bytes(4)
    return one_table(b"\xff\x1b" + uleb(len(behind)) + behind + indices)


def sites(size):
    """As many sites as there is room for, each with a pad."""
    return one_table(table_of(b"\0\0\x04\0" * (size // 4), b""))


def sites_in_segments(size):
    """The same behind 62 other segments."""
    others = b"".join(struct.pack("<IIQQQQQQ", LOAD, 4, 0, at, at, 0, 16, 8) for at in range(0x5000_0000, 0x5000_0000 + 62 * 256, 256))
    return one_table(table_of(b"\0\0\x04\0" * (size // 4), b""), others, 62)


def shared_table(size):
    """All FDEs name one long table."""
    table = table_of(bytes(size // 2), b"")
    frames = Frames(begin_of() + 8)
    frames.common()
    count = size // 48
    tables = frames.address + frames.size + 24 * count + 4
    for number in range(count):
        frames.function(0x4000_0000 + 4 * number, 4, tables)
    return image(without_rows() + frames.whole() + table)


def overlapping_tables(size):
    """Each FDE names a table of its own, which begins eight bytes behind the one before; all are as long."""
    frames = Frames(begin_of() + 8)
    frames.common()
    count = size // 48
    tables = frames.address + frames.size + 24 * count + 4
    window = 8 * (count - 1)
    for number in range(count):
        frames.function(tables + 8 * number, 4, tables + 8 * number)
    head = b"\xff\xff\x01" + bytes([window & 0x7F | 0x80, window >> 7 & 0x7F | 0x80, window >> 14]) + b"\0\0"
    body = without_rows() + frames.whole() + head * (2 * count + 2) + bytes(8 * count + 64)
    return image(body, claimed=begin_of() - BASE + len(body) + 0x1_0000)


def shared_cie(size):
    """All FDEs have one CIE with a long list of instructions."""
    frames = Frames(begin_of() + 8)
    frames.common(b"\x0e\x10" * (size // 4))
    for number in range(size // 48):
        frames.function(0x4000_0000 + 4 * number, 4)
    return image(without_rows() + frames.whole())


def own_cies(size):
    """Each FDE has a CIE of its own."""
    frames = Frames(begin_of() + 8)
    for number in range(size // 52):
        frames.common()
        frames.function(0x4000_0000 + 4 * number, 4)
    return image(without_rows() + frames.whole())


def rows(size):
    """One FDE has a row for each of its instructions."""
    frames = Frames(begin_of() + 8)
    frames.common()
    frames.function(0x4000_0000, 4 * size, 0, b"\x41" * size)
    return image(without_rows() + frames.whole())


def states(size):
    """One FDE remembers and restores its row."""
    frames = Frames(begin_of() + 8)
    frames.common()
    frames.function(0x4000_0000, 4, 0, b"\x0a\x0b" * (size // 2))
    return image(without_rows() + frames.whole())


def sorted_image(size, location):
    """FDEs with their rows; the locations are given by the number of each and how many there are."""
    count = size // 32
    frames = Frames(begin_of() + 12 + 8 * count)
    frames.common()
    for number in range(count):
        frames.function(*location(number, count))
    return image(with_rows(sorted(frames.rows), begin_of()) + frames.whole())


def falling(size):
    """FDEs whose locations fall, with a header's row for each."""
    return sorted_image(size, lambda number, count: (0x4000_0000 + 4 * (count - number), 4))


def empty(size):
    """FDEs of no bytes at one location, with a header's row for each."""
    return sorted_image(size, lambda number, count: (0x4000_0000, 0))


def overlaps(size):
    """FDEs of which each overlaps all that stand before it."""
    return sorted_image(size, lambda number, count: (0x4000_0000 + 4 * (count - number), 4 * count))


def header(size):
    """The header's table has a row for each eight bytes of the file, and there is one FDE."""
    count = size // 8
    frames = Frames(begin_of() + 12 + 8 * count)
    frames.common()
    frames.function(0x4000_0000, 4)
    return image(with_rows(frames.rows * count, begin_of()) + frames.whole())


def claims(size):
    """A short file whose segment claims 256 times the size in memory."""
    frames = Frames(begin_of() + 8)
    frames.common()
    frames.function(0x4000_0000, 4)
    return image(without_rows() + frames.whole(), claimed=256 * size)


def repeated(size, piece, end, most=3000):
    """A source of pieces by their number, as many as there is room for, and an end."""
    out, room, number = [], size - len(end), 0
    while number < most and len(piece(number)) <= room:
        out.append(piece(number))
        room -= len(out[-1])
        number += 1
    return ("".join(out) + end).encode()


def one_name(size):
    """A name of half the source."""
    name = "n" * (size // 2 - 32)
    return f"int {name}; int main() {{ return {name}; }}".encode()


def long_names(size):
    """Names of 500 bytes that differ in their last ones, each declared and used."""
    def piece(number):
        name = "n" * 494 + f"{number:06}"
        return f"int {name}; int f{number}() {{ return {name}; }}\n"
    return repeated(size, piece, "int main() { return 0; }")


def members(size):
    """Classes that each have a member of one long name."""
    name = "m" * 300
    return repeated(size, lambda number: f"struct C{number} {{ int {name}; int f() {{ return {name}; }} }};\n", "int main() { return 0; }")


def parameters(size):
    """Functions of as many parameters as there is room for, with names as long as there is room for."""
    functions = max(1, min(110, size // 5400))
    rest = size // (functions * 180) - 14
    list_of = ", ".join(f"int p{number}_{'q' * rest}" for number in range(180))
    return repeated(size, lambda number: f"void f{number}({list_of}) {{ }}\n", "int main() { return 0; }", functions)


def blanks(size):
    """A comment that is nearly closed again and again."""
    return b"/*" + b"* /" * ((size - 40) // 3) + b"*/ int main() { return 0; }"


IMAGES = [
    (two_chains, ["check"]), (loops, ["check"]), (lists, ["check"]), (sites, ["check", "dump"]), (sites_in_segments, ["check"]),
    (shared_table, ["check", "dump"]), (overlapping_tables, ["check"]), (shared_cie, ["check", "dump"]), (own_cies, ["check", "dump"]),
    (rows, ["check", "dump"]), (states, ["check", "dump"]), (falling, ["check", "dump"]), (empty, ["check", "dump"]), (overlaps, ["check"]),
    (header, ["check"]), (claims, ["check", "dump"]),
]
SOURCES = [one_name, long_names, members, parameters, blanks]
