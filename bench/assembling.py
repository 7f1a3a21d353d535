"""Images that a measuring script assembles: instructions, exception tables and frames."""
import struct

START, TABLES, FRAMES, HEADER = 0x1_0000, 0x1_1800, 0x1_2000, 0x1_2800
RA, SP, T0, S0, S1, A0, A1, A2, A7 = 1, 2, 5, 8, 9, 10, 11, 12, 17


def i_type(opcode, funct3, rd, rs1, imm):
    return (imm & 0xFFF) << 20 | rs1 << 15 | funct3 << 12 | rd << 7 | opcode


def addi(rd, rs1, imm):
    return i_type(0x13, 0, rd, rs1, imm)


def load(rd, rs1, imm):
    return i_type(0x03, 3, rd, rs1, imm)


def store(funct3, rs1, rs2, imm):
    return imm >> 5 << 25 | rs2 << 20 | rs1 << 15 | funct3 << 12 | (imm & 31) << 7 | 0x23


def branch(funct3, rs1, rs2, distance):
    fields = (distance >> 12 & 1) << 31 | (distance >> 5 & 63) << 25 | (distance >> 1 & 15) << 8 | (distance >> 11 & 1) << 7
    return fields | rs2 << 20 | rs1 << 15 | funct3 << 12 | 0x63


def jal(rd, distance):
    fields = (distance >> 20 & 1) << 31 | (distance >> 1 & 0x3FF) << 21 | (distance >> 11 & 1) << 20 | (distance >> 12 & 0xFF) << 12
    return fields | rd << 7 | 0x6F


def number(rd, n):
    """Sets a register to a number."""
    high = (n + 0x800) >> 12 & 0xFFFFF
    return [high << 12 | rd << 7 | 0x37, addi(rd, rd, n - (high << 12))]


def call(n):
    """A runtime call."""
    return [addi(A7, 0, n), 0x73]


def uleb(n):
    out = []
    while n > 127:
        out.append(n & 127 | 128)
        n >>= 7
    return bytes([*out, n])


def exception_table(sites, catches):
    """Of sites with start, length, pad and action. The action 1 is `catch (...)`, whose type entry is 0."""
    records = b"".join(uleb(field) for site in sites for field in site)
    if not catches:
        return bytes([0xFF, 0xFF, 0x01]) + uleb(len(records)) + records
    back = b"\x01" + uleb(len(records)) + records + b"\x01\x00"
    # The offset to the end of the entries takes a byte, and the entries begin at a multiple of 4.
    back += bytes(-(3 + len(back)) % 4)
    return b"\xff\x1b" + uleb(len(back) + 4) + back + bytes(4)


def frame_tables(functions, frames_at=FRAMES, header_at=HEADER):
    """The frames and their header, of functions with start, length and table, each of 16 bytes from its 8th byte on."""
    cie = b"\x14\0\0\0\0\0\0\0\x01zLR\0\x04\x78\x01\x02\x1b\x1b\x0c\x02\0".ljust(24, b"\0")
    frames, rows = cie, []
    for at, (start, length, table) in enumerate(functions):
        place = frames_at + len(frames)
        rows.append((start, place))
        saved = b"\x07\x01" if at == 0 else b"\x81\x01"
        body = struct.pack("<IiI", place + 4 - frames_at, start - place - 8, length)
        body += b"\x04" + struct.pack("<i", table - place - 17 if table else 0) + b"\x42\x0e\x10" + saved
        body = body.ljust(24, b"\0")
        frames += struct.pack("<I", len(body)) + body
    header = b"\x01\x1b\x03\x3b" + struct.pack("<iI", frames_at - header_at - 4, len(rows))
    for start, place in rows:
        header += struct.pack("<ii", start - header_at, place - header_at)
    return frames + bytes(4), header


def image(codes, tables):
    """The image of functions, one behind the other, with their exception tables, if any."""
    out, functions, address = bytearray(0x5000), [], START
    for at, (words, table) in enumerate(zip(codes, tables)):
        code = struct.pack(f"<{len(words)}I", *words)
        out[address - START:address - START + len(code)] = code
        place = TABLES + 0x100 * at if table else 0
        if table:
            out[place - START:place - START + len(table)] = table
        functions.append((address, len(code), place))
        address += len(code)
    frames, header = frame_tables(functions)
    out[FRAMES - START:FRAMES - START + len(frames)] = frames
    out[HEADER - START:HEADER - START + len(header)] = header
    struct.pack_into("<QQQ", out, 0x4000, 1, 0, 0)
    return bytes(out)


def elf(entry, segments, header, size, record):
    """A file of segments with address, flags and bytes, with the frames' header and the record for the runtime."""
    count, front = len(segments) + 2, 64 + 56 * (len(segments) + 2) + 24
    out = b"\x7fELF\x02\x01\x01".ljust(16, b"\0") + struct.pack("<HHIQQQIHHHHHH", 2, 243, 1, entry, 64, 0, 0, 64, 56, count, 0, 0, 0)
    place, memory = front, b""
    for address, flags, data in segments:
        out += struct.pack("<IIQQQQQQ", 1, flags, place + len(memory), address, address, len(data), len(data), 0)
        memory += data
    out += struct.pack("<IIQQQQQQ", 0x6474E550, 4, 0, header, header, size, size, 0)
    out += struct.pack("<IIQQQQQQ", 0x6E485831, 4, front - 24, 0, 0, 24, 24, 0)
    return out + struct.pack("<QQQ", 1, *record) + memory
