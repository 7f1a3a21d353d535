#!/usr/bin/env python3
"""Images of others: what `check`, `dump`, `frames` and `pack` say of them, held against readelf: `corpus.py [FOLDER..]`.

The images are those for RISC-V in the folders, by the Debian package that brought each; without a folder, in those where Debian's cross packages lie. Besides,
as far as they are here, g++ at each level and clang at each level build the cases of examples/other_compiler over g++'s own library: position-independent, with
frames for debuggers beside, and some of them shared by lld, and static, with a header of the frames and without, which is how Debian's compiler links.

Wrong is: a refusal 66 of an image that has a header of its frames by readelf, and any other refusal; a frame or a row that `dump` or readelf has alone; call sites,
actions, types and lists other than a reader of these tables here finds; a `frames` that finds no second form where readelf does, or two that differ; a packed image
that is not clean, that has other frames, or that packs once more. Each is printed, and then the status is 1.
"""
import collections
import concurrent.futures
import dataclasses
import os
import pathlib
import re
import shutil
import subprocess
import sys
import tempfile
import time

from building import TOP, program
from lsda_reader import tables_of

sys.path.insert(0, str(TOP / "examples/other_compiler"))

from cases import cases
from kit import CROSS, HERE

EHC = program()
FOLDERS = ["/usr/riscv64-linux-gnu", "/usr/lib/gcc-cross/riscv64-linux-gnu"]
LEVELS = ["-O0", "-O1", "-O2", "-O3", "-Os"]
# What is built statically too: each such image has the whole of the library's frames.
STATIC = ["virtual", "lists"]
READELF = next((it for it in (CROSS + "readelf", "readelf") if shutil.which(it)), None)
NAMES = ["zero", "ra", "sp", "gp", "tp", "t0", "t1", "t2", "s0", "s1", *(f"a{n}" for n in range(8)), *(f"s{n}" for n in range(2, 12)), *(f"t{n}" for n in range(3, 7))]
FLOATS = [*(f"ft{n}" for n in range(8)), "fs0", "fs1", *(f"fa{n}" for n in range(8)), *(f"fs{n}" for n in range(2, 12)), *(f"ft{n}" for n in range(8, 12))]
REGISTERS = {name: f"x{n}" for n, name in enumerate(NAMES)} | {name: f"f{n}" for n, name in enumerate(FLOATS)}


@dataclasses.dataclass
class Image:
    group: str
    file: pathlib.Path


def said(*words):
    done = subprocess.run([str(it) for it in words], capture_output=True)
    return done.returncode, done.stdout.decode(errors="replace"), done.stderr.decode(errors="replace")


# the images


def is_image(file):
    """Whether it is an ELF file of 64 bits for RISC-V that can be loaded."""
    with open(file, "rb") as it:
        head = it.read(20)
    return head[:6] == b"\x7fELF\x02\x01" and head[16:18] in (b"\x02\0", b"\x03\0") and head[18:20] == b"\xf3\0"


def installed(folders):
    for folder in folders:
        for file in sorted(pathlib.Path(folder).rglob("*")):
            if file.is_file() and not file.is_symlink() and is_image(file):
                owner = said("dpkg", "-S", file)[1] if shutil.which("dpkg") else ""
                yield Image(owner.split(":")[0] or str(folder), file)


def built(room, pool):
    """Images of the cases: of g++ and clang at each level, linked by g++."""
    if not shutil.which(CROSS + "g++"):
        return []
    (room / "both.h").write_text('asm(".cfi_sections .eh_frame, .debug_frame");\n')
    compilers = {"g++": [CROSS + "g++"]} | ({"clang": ["clang++", "--target=riscv64-linux-gnu", "-march=rv64gc", "-mabi=lp64d"]} if shutil.which("clang++") else {})
    subprocess.run([CROSS + "g++", "-fPIE", "-O1", "-c", HERE / "host.cpp", "-o", room / "host.o"], check=True)
    work = [(name, words, level, case) for name, words in compilers.items() for level in LEVELS for case in cases() if not case.is_bare]
    return [it for images in pool.map(lambda it: built_of(room, *it), work) for it in images]


def built_of(room, name, words, level, case):
    begin = room / f"{case.name}{case.source.suffix}-{name}{level}"
    how = [level, f"-std=c++{case.std}", "-w", "-DEHC_HOST", "-fno-builtin", "-include", HERE / "ehc.h", "-include", room / "both.h", "-c", case.source]
    object_, plain = f"{begin}.o", f"{begin}-plain.o"
    subprocess.run([*words, *how, "-fPIE", "-o", object_], check=True)
    link = [CROSS + "g++", object_, room / "host.o"]
    kinds = {"PIE": [*link, "-pie"]}
    if case.name in STATIC:
        kinds |= {"static": [*link, "-static", "-Wl,--eh-frame-hdr"], "static, as Debian links": [*link, "-static"]}
    if case.name in STATIC and shutil.which("ld.lld"):
        # it relaxes nothing, as the start of Debian's programs wants it
        subprocess.run([*words, *how, "-fPIC", "-mno-relax", "-o", plain], check=True)
        kinds["shared by lld"] = ["ld.lld", "-shared", "--eh-frame-hdr", plain]
    for kind, link in kinds.items():
        out = pathlib.Path(f"{begin}-{kind.replace(' ', '_')}")
        subprocess.run([*link, "-o", out], check=True)
        yield Image(f"{name} {kind}", out)


# frames, by dump and by readelf


def by_dump(text):
    """The frames: first and last address, rows of location, CFA and rules, and the lines of the exception table."""
    frames = []
    for line in text.splitlines():
        words = line.split()
        if words[0] == "frame":
            frames.append(((int(words[1], 16), int(words[2], 16)), [], []))
        elif words[0] == "row":
            frames[-1][1].append((int(words[1], 16), words[3], tuple(sorted(it for it in words[4:] if not it.endswith("=u")))))
        elif line.startswith("  "):
            frames[-1][2].append(line.strip())
    return sorted(frames, key=lambda it: it[0])


def by_readelf(text):
    """The same by readelf, of `.eh_frame` alone. Where a function's instructions move nothing it prints no row, and that of the CIE holds."""
    text = text.split("Contents of the .debug_frame")[0].split("Contents of the .eh_frame section")[-1]
    frames, initial, rows, names = [], {}, None, []
    for line in text.splitlines():
        cie = re.match(r"([0-9a-f]+) \S+ \S+ CIE ", line)
        fde = re.match(r"[0-9a-f]+ \S+ \S+ FDE cie=([0-9a-f]+) pc=([0-9a-f]+)\.\.([0-9a-f]+)", line)
        if cie:
            rows = initial[cie[1]] = []
        elif fde:
            rows = []
            frames.append(((int(fde[2], 16), int(fde[3], 16)), rows, initial[fde[1]]))
        elif line.split()[:2] == ["LOC", "CFA"]:
            names = line.split()[2:]
        elif re.match("[0-9a-f]{16} ", line):
            rows.append(row_of(line, names))
    whole = [(extent, rows or [(extent[0], *first[1:]) for first in begin[:1]]) for extent, rows, begin in frames]
    return sorted(whole, key=lambda it: it[0])


def row_of(line, names):
    at, cfa, *rules = re.sub(r"\br(\d+) \(\w+\)", r"x\1", line).split()
    register, offset = re.fullmatch(r"([a-z]+\d*)([+-]\d+)", cfa).groups()
    told = {REGISTERS[name]: rule for name, rule in zip(names, rules) if rule != "u"}
    return int(at, 16), REGISTERS[register] + offset, tuple(sorted(f"{name}={rule}" for name, rule in told.items()))


def unlike_frames(ours, theirs):
    """What one of two lists of frames has alone."""
    found = [f"frame {a:#x} {b:#x} stands in one alone" for a, b in set(it[0] for it in ours) ^ set(it[0] for it in theirs)]
    for one, other in zip(ours, theirs):
        if not found and one[:2] != (other[0], list(dict.fromkeys(other[1]))):
            rows = set(one[1]) ^ set(other[1])
            found.append(f"frame {one[0][0]:#x}: {sorted(rows)[:4] or 'other rows'}")
    return found if len(ours) == len(theirs) else [*found, f"{len(ours)} frames by dump and {len(theirs)} by readelf"]


# what is said of an image


def judged(image, room):
    """The counts of an image, and what is wrong with any answer."""
    file, counts = image.file, collections.Counter(images=1)
    status, out, err = said(EHC, "check", file)
    headers = said(READELF, "-lSW", file)[1]
    has_header, has_second = "GNU_EH_FRAME" in headers, " .debug_frame " in headers
    refused = re.match(r"ehc: image refused: (\d+)", err)
    if status:
        counts[f"refused {refused[1]}" if refused else f"status {status}"] += 1
        return counts, [] if refused and refused[1] == "66" and not has_header else [f"check: {err.strip()}"]
    found = [] if has_header else ["clean, and readelf finds no header of the frames"]
    counts["clean"] += 1
    counts.update(dict(zip(["cies", "frames", "tables", "sites"], map(int, re.findall(r"\d+", out)))))
    return counts, found + frames_judged(image, counts, has_second) + pack_judged(image, counts, room)


def frames_judged(image, counts, has_second):
    """`dump` beside readelf and the reader of tables, and `frames`."""
    ours = by_dump(said(EHC, "dump", image.file)[1])
    counts["rows"] += sum(len(it[1]) for it in ours)
    found = unlike_frames(ours, by_readelf(said(READELF, "--debug-dump=frames-interp", image.file)[1]))
    found += tables_of(image.file, [(extent, lines) for extent, _, lines in ours if lines])
    status, out, err = said(EHC, "frames", image.file)
    counts["both forms"] += status == 0
    if not (status == 0 and has_second or not has_second and err.startswith("ehc: image refused: 85 ")):
        found.append(f"frames: {status} {out}{err}".strip())
    return found


def pack_judged(image, counts, room):
    out, again = (room / f"{abs(hash(image.file))}.{it}" for it in ("packed", "again"))
    status, text, err = said(EHC, "pack", image.file, out)
    refused = re.match(r"ehc: image refused: (8[34]) ", err)
    found = []
    if refused:
        counts[f"pack {refused[1]}"] += 1
    elif status:
        found.append(f"pack: {err.strip()}")
    else:
        packed, _, saved = map(int, re.findall(r"\d+", text))
        counts["packed"] += packed
        counts["saved"] += saved
        frames = [[it[:2] for it in by_dump(said(EHC, "dump", it)[1])] for it in (image.file, out)]
        if said(EHC, "check", out)[0] or frames[0] != frames[1]:
            found.append("the packed image is not clean, or has other frames")
        if not said(EHC, "pack", out, again)[1].startswith("packed 0 of"):
            found.append("the packed image packs once more")
    for it in (out, again):
        it.unlink(missing_ok=True)
    return found


def show(rows, seconds):
    names = ["images", "clean", "frames", "rows", "tables", "sites", "both forms", "packed", "saved"]
    print(f"{'':32}" + "".join(f"{it:>11}" for it in names) + "   refused")
    for group, row in [*rows.items(), ("in all", sum(rows.values(), collections.Counter()))]:
        refused = ", ".join(f"{row[it]} {it.replace('refused', 'by')}" for it in sorted(row) if re.match("refused|status|pack ", it))
        print(f"{group:32}" + "".join(f"{row[it]:11}" for it in names) + f"   {refused}")
    print(f"{seconds:.0f} s")


def main():
    if not READELF:
        sys.exit("corpus: readelf is not here")
    begun, rows, wrong = time.monotonic(), collections.defaultdict(collections.Counter), []
    with tempfile.TemporaryDirectory() as room, concurrent.futures.ThreadPoolExecutor(os.cpu_count()) as pool:
        room = pathlib.Path(room)
        images = [*installed(sys.argv[1:] or FOLDERS), *built(room, pool)]
        for image, (counts, found) in zip(images, pool.map(lambda it: judged(it, room), images)):
            rows[image.group].update(counts)
            wrong += [f"{image.group}: {image.file.name}: {it}" for it in found[:5]]
    show(rows, time.monotonic() - begun)
    print("\n".join(wrong), end="\n" if wrong else "")
    print(f"{len(wrong)} wrong answers")
    return bool(wrong)


sys.exit(main())
