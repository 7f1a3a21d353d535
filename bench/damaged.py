#!/usr/bin/env python3
"""Damaged images, and what `ehc` says of them: `damaged.py [COUNT [SEED]]`, 1,000 images from seed 1 without them.

Each is one of the examples' images, or of those that `ehc compile` makes of the examples' sources, with some bytes changed: bits, a length, a word that points
elsewhere, a part that is cut or set to 0. `check`, `dump`, `doubts`, `at`, `frames` and `pack` have a second each. Wrong is: a command that is killed or takes longer; a status
that is none of 0, 3 and, for `frames`, 15; a refusal at a place outside of the file, but for a type entry or a list that is named there; or one that `check` tells otherwise than `dump`, `doubts` or `at`; and a packed image that
`check` judges otherwise than the image, or that packs once more.
"""
import collections
import concurrent.futures
import os
import pathlib
import random
import re
import subprocess
import sys
import tempfile
import time

from building import TOP, program

EHC = program()
LIMIT = 1.0
# A filter may name a type entry (1) or a list (14) that would lie behind its segment, and so behind the file.
BEHIND = ("1", "14")
# Places in functions of the images, and of none.
PLACES = ["0x10120", "0x10294", "0x11290", "0x112d8", "0"]


def ran(*words):
    """The status and the texts of a command; none where it took longer."""
    try:
        done = subprocess.run([EHC, *map(str, words)], capture_output=True, timeout=LIMIT)
    except subprocess.TimeoutExpired:
        return None, "", ""
    return done.returncode, done.stdout.decode(errors="replace"), done.stderr.decode(errors="replace")


def originals(room):
    """The images that are damaged."""
    for image in sorted((TOP / "examples").glob("*.elf")):
        yield image.read_bytes()
    for source in sorted((TOP / "examples").glob("*.cc")):
        out = room / "original.elf"
        if ran("compile", source, out)[0] == 0:
            yield out.read_bytes()


def damaged(chance, image):
    """The image with one to four changes."""
    data = bytearray(image)
    for _ in range(chance.choice([1, 1, 1, 2, 4])):
        at = chance.randrange(len(data))
        kind = chance.randrange(6)
        if kind == 0:
            data[at] ^= 1 << chance.randrange(8)
        elif kind == 1:
            data[at] = chance.choice([0, 1, 0x7F, 0x80, 0xFF, chance.randrange(256)])
        elif kind == 2:
            data[at : at + 4] = chance.choice([0, 1, 0xFFFFFFFF, len(data), chance.randrange(1 << 32)]).to_bytes(4, "little")
        elif kind == 3:
            other = chance.randrange(len(data))
            data[at : at + 8] = data[other : other + 8]
        elif kind == 4:
            data[at : at + chance.randrange(1, 64)] = bytes(chance.randrange(1, 64))
        elif len(data) > 1:
            del data[chance.randrange(1, len(data)) :]
    return bytes(data)


def fault(words, status, err, size):
    """What is wrong with an answer, if anything is."""
    if status is None:
        return f"{words} takes longer than {LIMIT} s"
    refused = re.fullmatch(r"ehc: image refused: (\d+) at (\d+)(, 0x[0-9a-f]+ 0x[0-9a-f]+)?\n", err)
    # a field of the ELF header may lie behind the end of a file that is cut
    if status == 3 and refused and (int(refused[2]) <= max(size, 64) or refused[1] in BEHIND):
        return None
    return None if status == 0 and not err or status == 15 and words == "frames" and not err else f"{words} answers {status}: {err.strip()}"


def judged(number, seed, image, room):
    """The status of `check`, and what is wrong with any answer."""
    data = damaged(random.Random(f"{seed} {number}"), image)
    file, out = room / f"{number}.elf", room / f"{number}.packed"
    file.write_bytes(data)
    more = {"pack": [out], "at": PLACES}
    answers = {words: ran(words, file, *more.get(words, [])) for words in ("check", "dump", "doubts", "at", "frames", "pack")}
    wrong = [it for words, (status, _, err) in answers.items() if (it := fault(words, status, err, len(data)))]
    wrong += [f"check and {words} refuse otherwise" for words in ("dump", "doubts", "at") if answers["check"][2] != answers[words][2]]
    if answers["pack"][0] == 0:
        # sites that say the same are one then
        counts = [re.sub(r", \d+ sites", "", text) for text in (ran("check", out)[1], answers["check"][1])]
        if counts[0] != counts[1]:
            wrong.append("the packed image is judged otherwise")
        if not re.match(r"packed 0 of", ran("pack", out, room / f"{number}.again")[1]):
            wrong.append("the packed image packs once more")
    for it in (file, out, room / f"{number}.again"):
        it.unlink(missing_ok=True)
    return answers["check"][0], [f"image {number} of seed {seed}: {it}" for it in wrong]


def main():
    count = int(sys.argv[1]) if len(sys.argv) > 1 else 1000
    seed = int(sys.argv[2]) if len(sys.argv) > 2 else 1
    begun, statuses, wrong = time.monotonic(), collections.Counter(), []
    with tempfile.TemporaryDirectory() as room, concurrent.futures.ThreadPoolExecutor(os.cpu_count()) as pool:
        room = pathlib.Path(room)
        images = list(originals(room))
        for status, found in pool.map(lambda number: judged(number, seed, images[number % len(images)], room), range(count)):
            statuses[status] += 1
            wrong += found
    print("\n".join(wrong[:20]))
    print(f"{count} images of seed {seed}: {statuses[0]} clean, {statuses[3]} refused; {len(wrong)} wrong answers; {time.monotonic() - begun:.0f} s")
    return bool(wrong)


sys.exit(main())
