"""What is said of a refused image: the place by section, address and function, the bytes, what is wrong, and how it is mended."""
import struct

from elf import DAMAGED, Image, demangled
from frames import Reader, regions, site, table_round
from lines import put
from pages import rules

# How many bytes are at fault, by the refusal's number; of those that are not here that is seen from the bytes themselves.
COUNTS = {60: 4, 61: 2, 62: 2, 64: 56, 65: 56, 68: 56, 84: 56, 86: 64, 87: 64, 53: 4, 57: 4, 50: 4, 59: 8}
HEADER_COUNTS = {16: 2, 32: 8, 40: 8, 54: 2, 56: 2, 58: 2, 62: 2}
SITES, ACTIONS, NUMBERS = (4, 5, 6, 7), (8, 9, 15), (1, 2, 58)
# The place of these is in an exception table, or may be.
TABLES = (*range(1, 16), 69, 83)
PROGRAM_HEADERS, SECTION_HEADERS = (64, 65, 68, 84), (86, 87)
# Of these the place is the file's beginning, and no byte of it is wrong.
NOWHERE = (66, 67)
# Its place is an address that was asked for, and none of the file.
NO_RECORD = 89
ROW = 16


class Refused:
    """A refusal of an image, with the frame whose part or exception table it stands in, where there is one."""

    def __init__(self, number, at, name, data):
        self.number, self.at, self.name, self.image = number, at, name, Image(data)
        found = regions(self.image)
        self.part = next((one for one in found if one.first <= at < one.end_place), None)
        self.table = table_round(self.image, at, found) if number in TABLES and not self.part else None
        self.site = None
        self.end = at + self.count()

    def count(self):
        try:
            if self.number in SITES and self.table:
                self.site, end = site(self.image, self.at, self.table)
                return end - self.at
            if self.number in (*ACTIONS, *NUMBERS):
                reader = Reader(self.image, self.at)
                reader.leb(), self.number in ACTIONS and reader.leb()
                return min(reader.at - self.at, 20)
        except (*DAMAGED, TypeError):
            return 1
        return HEADER_COUNTS.get(self.at, 1) if self.number in (63, 85, 86) and self.at < 64 else COUNTS.get(self.number, 1)

    def where(self):
        section = self.image.section(self.at)
        address = self.image.address(self.at)
        parts = [f"{section[0]} + 0x{section[1]:x}"] if section else []
        parts += [f"address 0x{address:x}"] if address is not None and self.at >= 64 else []
        parts += ["the end of the file"] if self.at == len(self.image.data) else []
        return ", ".join([*parts, f"byte {self.at} (0x{self.at:x})"])

    def function(self, address):
        name = self.image.function(address)
        return f" of {demangled([name]).get(name, name)}" if name else ""

    def about(self):
        """The frame, and what the record there says."""
        if self.table:
            start, end, table = self.table.start, self.table.end, self.table.table
            yield f"exception table 0x{table:x}{self.function(start)}, frame 0x{start:x} 0x{end:x}, byte {self.image.address(self.at) - table} of the table"
        if self.part:
            yield f"frame 0x{self.part.start:x} 0x{self.part.end:x}{self.function(self.part.start)}, byte {self.at - self.part.first} of its part"
        if self.site:
            yield self.site
        yield from self.header()
        if self.number == 50 and any(place + size == self.at for place, size, name in self.image.sections if name == ".eh_frame"):
            yield "the first byte behind .eh_frame"

    def header(self):
        """What the header there says."""
        data = self.image.data
        if self.number in PROGRAM_HEADERS and self.at + 56 <= len(data):
            number = (self.at - int.from_bytes(data[32:40], "little")) // 56
            kind, flags, offset, address, _, size, memory, _ = struct.unpack_from("<IIQQQQQQ", data, self.at)
            yield f"program header {number}: type 0x{kind:x}, flags {flags}, offset 0x{offset:x}, address 0x{address:x}, 0x{size:x} bytes in the file, 0x{memory:x} in memory"
        if self.number in SECTION_HEADERS and 64 <= self.at <= len(data) - 64:
            number = (self.at - int.from_bytes(data[40:48], "little")) // 64
            _, kind, flags, address, offset, size, *_ = struct.unpack_from("<IIQQQQIIQQ", data, self.at)
            yield f"section header {number}: type 0x{kind:x}, flags 0x{flags:x}, address 0x{address:x}, offset 0x{offset:x}, 0x{size:x} bytes"

    def shown(self):
        """The rows of bytes round the place, with marks under those that are at fault."""
        first, lines = self.at - self.at % ROW, []
        for row in range(first, min(self.end, first + 5 * ROW), ROW):
            taken = self.image.data[row : row + ROW]
            if not taken:
                break
            marks = ["^^" if self.at <= row + i < self.end else "  " for i in range(ROW)]
            lines += [f"{row:08x} " + " ".join(f"{byte:02x}" for byte in taken), f"{'':9}" + " ".join(marks).rstrip()]
        return [] if self.number in NOWHERE else lines

    def rule(self):
        """Where it is refused so: of several lists with the number, that of the place's own kind."""
        found = [dict(texts)["Where"] for _, texts in rules(self.number, "TABLES.md") if "Where" in dict(texts)]
        found = [text for text in found if not text.startswith("as in")]
        section = self.image.section(self.at)
        is_last = section and section[0] == ".debug_frame" or not self.table and self.number <= 15
        return found[-1:] if is_last else found[:1]


def tell_image(number, at, locations, name, data, is_brief):
    meant = next((dict(texts) for _, texts in rules(number, "TABLES.md") if "How it is mended" in dict(texts)), None)
    if meant is None:
        raise SystemExit(f"explain: no refusal of an image has the number {number}")
    if number == NO_RECORD:
        print(f"{name}: address 0x{at:x}: {meant['What it means for the image']} ({number})")
        put(f"how it is mended: {meant['How it is mended']}")
        return
    refused = Refused(number, at, name, data)
    print(f"{name}: {refused.where()}: {meant['What it means for the image']} ({number})")
    for text in refused.about():
        put(text)
    for line in refused.shown():
        print(line)
    for location in locations:
        put(f"location 0x{location:x}{refused.function(location)}")
    for text in refused.rule():
        put(f"refused where: {text}")
    if not is_brief:
        put(f"place: {meant['Place']}")
    put(f"how it is mended: {meant['How it is mended']}")
