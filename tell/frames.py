"""The frames of an image that may be damaged: for each the function's region and its exception table, as far as bytes can be read.

The forms are those of docs/TABLES.md, "Frame information" and "An exception table"; what can't be read is left out, and never an error.
"""
import dataclasses

from elf import DAMAGED

OMITTED = 0xFF
SIZES = {0: 8, 2: 2, 3: 4, 4: 8, 0xA: 2, 0xB: 4, 0xC: 8}


@dataclasses.dataclass
class Region:
    """A frame: where its part stands in the file, the addresses of its function, and its exception table's address, or 0."""

    first: int
    end_place: int
    start: int
    end: int
    table: int


class Reader:
    """Reads fields from a place of an image on."""

    def __init__(self, image, at):
        self.image, self.at = image, at

    def byte(self):
        self.at += 1
        return self.image.data[self.at - 1]

    def number(self, size, signed=False):
        self.at += size
        taken = self.image.data[self.at - size : self.at]
        if len(taken) < size:
            raise IndexError(self.at)
        return int.from_bytes(taken, "little", signed=signed)

    def leb(self, signed=False):
        value = shift = 0
        while True:
            byte = self.byte()
            value |= (byte & 0x7F) << shift
            shift += 7
            if byte < 0x80 or shift >= 70:
                return value - (1 << shift) if signed and byte & 0x40 else value

    def format(self, encoding):
        """A number in the format of an encoding byte."""
        form = encoding & 15
        if form in (1, 9):
            return self.leb(form == 9)
        return self.number(SIZES[form], form >= 9) if form in SIZES else self.number(0)

    def pointer(self, encoding):
        here = self.image.address(self.at) or 0
        value = self.format(encoding)
        return (value + here) % 2**64 if value and encoding & 0x70 == 0x10 else value % 2**64


def eh_frame(image):
    """The place of .eh_frame in the file, by the header for the runtime or by its section."""
    try:
        reader = Reader(image, image.place(image.eh_frame_header))
        version, encoding, _, _ = (reader.byte() for _ in range(4))
        found = image.place(reader.pointer(encoding)) if version == 1 else None
    except (*DAMAGED, TypeError):
        found = None
    named = [place for place, _, name in image.sections if name == ".eh_frame"]
    return found if found is not None else (named or [None])[0]


def encodings(image, at):
    """What the augmentation of a CIE says: the encodings of tables and of locations, and whether parts have data of a stated length."""
    reader = Reader(image, at + 8)
    version, letters = reader.byte(), ""
    while byte := reader.byte():
        letters += chr(byte)
    reader.leb(), reader.leb(True), reader.leb() if version == 3 else reader.byte()
    table, location = OMITTED, 0
    if letters.startswith("z"):
        reader.leb()
    for letter in letters[1:]:
        if letter == "L":
            table = reader.byte()
        elif letter == "R":
            location = reader.byte()
        elif letter == "P":
            reader.pointer(reader.byte())
    return table, location, letters.startswith("z")


def region(image, at, end):
    """What an FDE says."""
    reader = Reader(image, at + 4)
    table_form, location_form, has_length = encodings(image, at + 4 - reader.number(4))
    start = reader.pointer(location_form)
    size, table = reader.format(location_form & 15), 0
    if has_length:
        reader.leb()
    if table_form != OMITTED:
        table = reader.pointer(table_form)
    return Region(at, end, start, start + size, table)


def regions(image):
    """Each frame that can be read, in the order of the file."""
    at, found = eh_frame(image), []
    while at is not None and 4 <= (length := int.from_bytes(image.data[at : at + 4], "little")) <= len(image.data) - at:
        end = at + 4 + length
        if any(image.data[at + 4 : at + 8]):
            try:
                found.append(region(image, at, end))
            except DAMAGED:
                pass
        at = end
    return found


def table_round(image, at, found):
    """The frame whose exception table has a place: the last table that begins at or before it."""
    address = image.address(at)
    before = [one for one in found if one.table and address is not None and one.table <= address]
    return max(before, key=lambda one: one.table, default=None)


def site(image, at, frame):
    """The call site whose record begins at a place, as `dump` prints one, and the end of the record."""
    reader = Reader(image, image.place(frame.table))
    form = reader.byte()
    base = frame.start if form == OMITTED else reader.pointer(form)
    if reader.byte() != OMITTED:
        reader.leb()
    form, reader.at = reader.byte(), at
    start, size, pad = (reader.format(form) for _ in range(3))
    action = reader.leb()
    begin = frame.start + start
    return f"site 0x{begin:x} 0x{begin + size:x} pad 0x{base + pad if pad else 0:x} action {action}", reader.at
