#!/usr/bin/env python3
"""Holds what other tools read of an image by its sections against `ehc dump`, for each example that compiles, and counts differences.

Frames: their extents and rows, by `readelf --debug-dump=frames-interp` and by `llvm-dwarfdump --eh-frame`, which finds no errors. Code:
`llvm-objdump -d` has an instruction for each word of the file; branches and jumps stay in the frame that `dump` has there, calls lead to
where one begins, and the runtime's own functions are those that docs/CODE.md lists. Symbols: those of functions begin and end with a frame;
`gdb` and `llvm-objdump -C` show their names as `c++filt` does. What is compiled lies in a folder of its own. A tool that is not there is
named, and what it reads is left out. Below the table stands each difference, and then the script's status is 1.
"""
import pathlib
import re
import shutil
import subprocess
import sys
import tempfile

from building import TOP, program, run

EHC = program()
NUMBERS = {"ra": 1, "s1": 9, **{f"s{n}": 16 + n for n in range(2, 12)}}
TOOLS = ["readelf", "llvm-dwarfdump", "llvm-objdump", "gdb", "c++filt"]
OWN = ["_start", "_ZN10__cxxabiv111__terminateEPFvvE", "__cxa_end_catch", "__cxa_call_unexpected"]


def quiet(command):
    """What a tool prints, with what it complains of."""
    done = subprocess.run(command, capture_output=True, text=True)
    return done.stdout, [f"{command[0]}: {line}" for line in done.stderr.splitlines()]


def dumped(text):
    """Extent -> rows (location, CFA, register and rule of each that has one), as `dump` has them."""
    frames, rows = {}, None
    for line in text.splitlines():
        words = line.split()
        if words[0] == "frame":
            rows = frames[int(words[1], 16), int(words[2], 16)] = []
        elif words[0] == "row":
            rows.append((int(words[1], 16), words[3].replace("x2", "sp"), tuple(word.split("=", 1) for word in words[4:])))
    return {extent: [(at, cfa, tuple((int(name[1:]), rule) for name, rule in rules)) for at, cfa, rules in rows] for extent, rows in frames.items()}


def by_readelf(text):
    """The same, by readelf, which has u where dump has no rule."""
    frames, rows, names = {}, None, []
    for line in text.splitlines():
        words = line.split()
        extent = re.search(r" FDE .* pc=([0-9a-f]+)\.\.([0-9a-f]+)", line)
        if extent:
            rows, names = frames.setdefault((int(extent[1], 16), int(extent[2], 16)), []), []
        elif " CIE " in line:
            rows, names = [], []
        elif words[:2] == ["LOC", "CFA"]:
            names = [NUMBERS[name] for name in words[2:]]
        elif words and re.fullmatch("[0-9a-f]{16}", words[0]) and len(words) == 2 + len(names):
            rows.append((int(words[0], 16), words[1], ruled(zip(names, words[2:]))))
    return frames


def ruled(rules):
    """Rules but those that say nothing, by register."""
    return tuple(sorted((number, rule) for number, rule in rules if rule != "u"))


def by_dwarfdump(text):
    """The same, by llvm-dwarfdump."""
    frames, rows = {}, []
    for line in text.splitlines():
        extent = re.search(r" FDE .* pc=([0-9a-f]+)\.\.\.([0-9a-f]+)", line)
        row = re.fullmatch(r"\s+0x([0-9a-f]+): CFA=X2(\+\d+)?(?:: (.*))?", line)
        if extent:
            rows = frames[int(extent[1], 16), int(extent[2], 16)] = []
        elif row:
            rules = [one.replace("undefined", "u").replace("[CFA", "c").strip("]").split("=") for one in row[3].split(", ")] if row[3] else []
            rows.append((int(row[1], 16), "sp" + (row[2] or "+0"), tuple((int(name[1:]), rule) for name, rule in rules)))
    return frames


def unlike(tool, ours, theirs):
    """Each frame or row that one of two readings has alone."""
    found = [f"{tool}: frame {a:#x} {b:#x} stands in one alone" for a, b in sorted(set(ours) ^ set(theirs))]
    for extent in sorted(set(ours) & set(theirs)):
        found += [f"{tool}: row {row} of {extent[0]:#x} stands in one alone" for row in sorted(set(ours[extent]) ^ set(theirs[extent]))]
    return found


def instructions(text):
    """Address -> word, mnemonic, operands; and the names above them by their addresses."""
    words, names = {}, {}
    for line in text.splitlines():
        head = re.fullmatch(r"([0-9a-f]{16}) <(.*)>:", line)
        one = re.fullmatch(r"\s*([0-9a-f]+): ((?:[0-9a-f]{2} ){4})\s*(\S+)\s*(.*)", line)
        if head:
            names[int(head[1], 16)] = head[2]
        elif one:
            words[int(one[1], 16)] = bytes.fromhex(one[2]), one[3], one[4].strip()
    return words, names


def sections_of(image):
    text, found = quiet(["readelf", "-SW", image])
    rows = re.findall(r"\[ *\d+\] (\.\S+) +\S+ +([0-9a-f]+) ([0-9a-f]+) ([0-9a-f]+)", text)
    return {name: (int(at, 16), int(offset, 16), int(size, 16)) for name, at, offset, size in rows}, found


def symbols_of(image):
    """Names of functions with their extents."""
    text, found = quiet(["readelf", "-sW", image])
    rows = re.findall(r"\d+: ([0-9a-f]{16}) +(\d+) FUNC +GLOBAL DEFAULT +\d+ (\S+)", text)
    return {name: (int(at, 16), int(at, 16) + int(size)) for at, size, name in rows}, found


def aimed(at, words):
    """Where a call by auipc and jalr leads."""
    high = int.from_bytes(words[at][0], "little") & 0xfffff000
    low = int.from_bytes(words[at + 4][0], "little") >> 20
    return (at + high + (low - 4096 if low >= 2048 else low)) & 0xffffffff


def code_differences(image, frames, words):
    sections, found = sections_of(image)
    at, offset, size = sections[".text"]
    code = pathlib.Path(image).read_bytes()[offset:offset + size]
    found += [f"code: no instruction at {a:#x}" for a in range(at, at + size, 4)
              if a not in words or words[a][1] == "<unknown>" or words[a][0] != code[a - at:a - at + 4]]
    found += [f"code: an instruction at {a:#x}" for a in words if not at <= a < at + size]
    firsts = {first for first, end in frames}
    for a, (word, name, operands) in words.items():
        inside = [(first, end) for first, end in frames if first <= a < end]
        if name == "auipc" and operands.startswith("ra,") and aimed(a, words) not in firsts | {at + size_of_own(frames, at)}:
            found.append(f"code: the call at {a:#x} leads to no frame's beginning")
        leads = re.search(r"0x([0-9a-f]+) <", operands)
        if leads and inside and not inside[0][0] <= int(leads[1], 16) < inside[0][1]:
            found.append(f"code: the jump at {a:#x} leaves its frame")
    return found + listing_differences(at, words)


def size_of_own(frames, at):
    """How many bytes the runtime's own functions take; the unit's first word is behind them."""
    return sorted(frames)[len(OWN) - 1][1] - at


def listed():
    """The instructions of the runtime's own functions as docs/CODE.md lists them."""
    text = (TOP / "docs/CODE.md").read_text().split("## The runtime's own functions")[1].split("\n## ")[0]
    lines = [re.sub(r"^\w+:", "", line.split("#")[0].strip()).strip() for line in text.splitlines() if line.startswith("    ")]
    return [(line + " ").split(" ", 1) for line in lines if line]


def plain(operands):
    """Operands without what is a label or a distance to one: registers and other numbers."""
    return re.findall(r"\b(?:zero|ra|sp|a\d|t\d)\b|-?\b\d+\b", operands.split(" <")[0])


def listing_differences(at, words):
    """With each name or distance left out, the lists are one."""
    found = []
    for number, (name, operands) in enumerate(listed()):
        other = words[at + 4 * number]
        known = plain(re.sub(r"\b(?:\d[bf]|(?!zero\b|ra\b|sp\b|a\d\b|t\d\b)[a-z]\w*)(?=$|\()", "", operands))
        there = plain(other[2])
        if name != other[1] or [one for one in there if one in known] != known:
            found.append(f"listing: {name} {operands} beside {other[1]} {other[2]}")
    return found


def differences(image, dump):
    """How many frames, rows, words and symbols there are, and each difference."""
    frames, found = dumped(dump), []
    symbols, words = {}, {}
    if shutil.which("readelf"):
        text, complaints = quiet(["readelf", "--debug-dump=frames-interp", image])
        ours = {extent: [(a, cfa, ruled(rules)) for a, cfa, rules in rows] for extent, rows in frames.items()}
        symbols, others = symbols_of(image)
        found += complaints + others + unlike("readelf", ours, by_readelf(text))
        found += [f"symbols: {name} is no frame's" for name, extent in symbols.items() if extent not in frames]
        found += [f"symbols: no {name}" for name in [*OWN, "main"] if name not in symbols]
    if shutil.which("llvm-dwarfdump"):
        text, complaints = quiet(["llvm-dwarfdump", "--eh-frame", image])
        verified, others = quiet(["llvm-dwarfdump", "--verify", image])
        found += complaints + others + unlike("llvm-dwarfdump", frames, by_dwarfdump(text))
        found += [] if verified.endswith("No errors.\n") else ["llvm-dwarfdump: " + verified]
    if shutil.which("llvm-objdump") and symbols:
        text, complaints = quiet(["llvm-objdump", "-d", "--mattr=+m", "-M", "no-aliases", image])
        words, _ = instructions(text)
        found += complaints + code_differences(image, frames, words)
    if shutil.which("c++filt") and symbols:
        named = dict(zip(symbols, run(["c++filt", *symbols]).splitlines()))
        if shutil.which("llvm-objdump"):
            names = instructions(quiet(["llvm-objdump", "-dC", image])[0])[1]
            found += [f"llvm-objdump: no {named[name]}" for name, (at, _) in symbols.items() if names.get(at) != named[name]]
        if shutil.which("gdb"):
            text, _ = quiet(["gdb", "-nx", "-batch", "-ex", "info functions", image])
            names = {int(at, 16): name for at, name in re.findall(r"^0x([0-9a-f]+)  (.*)$", text, re.M)}
            found += [f"gdb: no {named[name]}" for name, (at, _) in symbols.items() if names.get(at) != named[name]]
    return (len(frames), sum(map(len, frames.values())), len(words), len(symbols)), found


def main():
    print("".join(f"{tool} is not here\n" for tool in TOOLS if not shutil.which(tool)), end="")
    print(f"{'example':24}{'frames':>8}{'rows':>8}{'words':>8}{'symbols':>9}{'differences':>13}")
    all_found = []
    with tempfile.TemporaryDirectory() as folder:
        for source in sorted((TOP / "examples").glob("*.cc")):
            image = f"{folder}/{source.stem}"
            if all(subprocess.run([EHC, "compile", std, source, image], capture_output=True).returncode for std in ("--std=03", "--std=11")):
                continue
            counts, found = differences(image, run([EHC, "dump", image]))
            print(f"{source.stem:24}{counts[0]:8}{counts[1]:8}{counts[2]:8}{counts[3]:9}{len(found):13}", flush=True)
            all_found += [f"{source.stem}: {one}" for one in found]
    print("\n".join(all_found), end="\n" if all_found else "")
    return 1 if all_found else 0


if __name__ == "__main__":
    sys.exit(main())
