#!/usr/bin/env python3
"""Measures how many FDEs a second frame_read reads and tests, beside `readelf --debug-dump=frames` on the same bytes.

The frames are those of functions that save some registers, with a header that has a row for each of them; readelf
gets the same bytes as section .eh_frame of an ELF file, and what it needs for a file without frames is taken off. It
prints each instruction besides, but tests neither overlaps nor the header's table. Processor time counts. What is built
lies in a folder of its own.
"""
import pathlib
import struct
import tempfile

from building import EACH_SOURCE, processor_seconds, rattle_program, run

SIZES, FUNCTIONS_OF_A_CIE, ROUNDS, RUNS = [5_000, 10_000, 20_000], 100, 50, 5
HEADER, CODE = 0x1000_0000, 0x2000_0000

MAIN = EACH_SOURCE.replace("use std::time::Instant;", "use eh_bytes::{Segment, Segments};") + """        let mut parts = Vec::new(rt.alloc());
        parts.push(Segment { address: %d, bytes: source, file_at: 0, write: false, exec: false })?;
        let memory = Segments { parts };
        let mut read = 0usize;
        for _ in 0..%d {
            read = frame_read::read_frames(rt.alloc(), &memory, %d).map_or(0, |frames| frames.fdes().len());
        }
        println!(rt; "{read}")?;
    }
    Ok(())
}
""" % (HEADER, ROUNDS, HEADER)

# def_cfa x2 + 0
CIE = b"\0\0\0\0\x01zLR\0\x04\x78\x01\x02\x1b\x1b\x0c\x02\0\0\0"
# The frame grows by 32 bytes, x1 and x8 are saved, x8 becomes its base, and at the end all is as it was.
MOVES = b"\x41\x0e\x20\x43\x81\x01\x88\x02\x41\x0c\x08\x00\x4a\x0c\x02\x20\x42\xc1\xc8\x41\x0e\x00"


def part(body):
    body += b"\0" * (-len(body) % 4)
    return struct.pack("<I", len(body)) + body


def frames(functions, functions_of_a_cie, address):
    """The bytes of .eh_frame at an address, and a row of each FDE."""
    pieces, rows, size, cie = [], [], 0, 0
    for number in range(functions):
        if number % functions_of_a_cie == 0:
            cie = size
            pieces.append(part(CIE))
            size += len(pieces[-1])
        start = CODE + 256 * number
        body = struct.pack("<IiI", size + 4 - cie, start - (address + size + 8), 128 + number % 32 * 4)
        rows.append((start, address + size))
        pieces.append(part(body + struct.pack("<Bi", 4, 0) + MOVES))
        size += len(pieces[-1])
    return b"".join([*pieces, b"\0\0\0\0"]), rows


def headed(functions, functions_of_a_cie):
    """Header and frames, and where the frames begin."""
    size = 12 + 8 * functions
    bytes_of_frames, rows = frames(functions, functions_of_a_cie, HEADER + size)
    header = struct.pack("<BBBBiI", 1, 0x1b, 3, 0x3b, size - 4, functions)
    table = b"".join(struct.pack("<ii", location - HEADER, fde - HEADER) for location, fde in rows)
    return header + table + bytes_of_frames, size


def elf(section, address):
    """A relocatable RISC-V file with these bytes as .eh_frame, or with none."""
    names = b"\0.shstrtab\0.eh_frame\0"
    sections = [(1, 3, 0, 0, names)] + ([(11, 1, 2, address, section)] if section else [])
    place, headers, body = 64, [bytes(64)], b""
    for name, kind, flags, at, content in sections:
        headers.append(struct.pack("<IIQQQQIIQQ", name, kind, flags, at, place + len(body), len(content), 0, 0, 8, 0))
        body += content + b"\0" * (-len(content) % 8)
    start = b"\x7fELF\x02\x01\x01" + bytes(9)
    start += struct.pack("<HHIQQQIHHHHHH", 1, 243, 1, 0, 0, place + len(body), 0, 64, 0, 0, 64, len(headers), 1)
    return start + body + b"".join(headers)


def main():
    with tempfile.TemporaryDirectory() as folder:
        work = pathlib.Path(folder)
        (work / "none.o").write_bytes(elf(b"", 0))
        kinds = [("one CIE", 1 << 40), ("a CIE for 100", FUNCTIONS_OF_A_CIE)]
        cases = [(name, size, many) for name, many in kinds for size in SIZES]
        for number, (_, size, many) in enumerate(cases):
            content, start = headed(size, many)
            (work / f"frames{number}").write_bytes(content)
            (work / f"frames{number}.o").write_bytes(elf(content[start:], HEADER + start))
        program = rattle_program(work, "frame_speed", MAIN, ["eh_bytes", "frame_read"])
        run(["rt", "run", "--", work / "frames0"], cwd=program)
        dump = ["readelf", "--debug-dump=frames"]
        nothing = processor_seconds([*dump, work / "none.o"], RUNS)
        print(f"{'frames':>16}{'FDEs':>8}{'frame_read':>12}{'readelf':>9}   ratio    (thousand FDEs a second)")
        for number, (name, size, _) in enumerate(cases):
            path = work / f"frames{number}"
            reader = [program / "out/frame_speed", path]
            assert int(run(reader)) == run([*dump, f"{path}.o"]).count(" FDE cie=") == size, (name, size)
            speed = size * ROUNDS / processor_seconds(reader, RUNS) / 1e3
            peer = size / (processor_seconds([*dump, f"{path}.o"], RUNS) - nothing) / 1e3
            print(f"{name:>16}{size:>8}{speed:>12.0f}{peer:>9.0f}{speed / peer:>8.1f}")


if __name__ == "__main__":
    main()
