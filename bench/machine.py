#!/usr/bin/env python3
"""Times the machine on three loops beside a plain C interpreter of the same words, and prints a small table.

`bench_loops` runs each loop for so many steps; the C program that this script builds at -O2 does the same with a
switch over the words, with the same tests of addresses. The time of a run of few steps, which is that of making the
machine, is taken off. What it builds lies in a folder of its own.
"""
import pathlib
import re
import subprocess
import sys
import tempfile
import time

HERE = pathlib.Path(__file__).resolve().parent
CRATE = HERE.parent / "crates/bench_loops"
LOOPS = ["arithmetic", "memory", "calls"]
FEW, MANY = 1_000, 100_000_000

INTERPRETER = r"""
#include <stdint.h>
#include <stdio.h>
#include <stdlib.h>
#include <string.h>
typedef struct { uint64_t address, size; uint8_t *bytes; int write, exec; } Part;
static uint8_t code[2048], *stack, *slots;
static Part parts[3];
static uint64_t x[32], pc = 0x10000;
static const uint32_t arithmetic[] = {%(arithmetic)s}, memory[] = {%(memory)s}, calls[] = {%(calls)s};

static uint8_t *place(uint64_t a, uint64_t n, int write, int exec) {
    for (int i = 0; i < 3; i++) {
        Part *p = &parts[i];
        if (a >= p->address && n <= p->size && a - p->address <= p->size - n)
            return (write && !p->write) || (exec && !p->exec) ? 0 : p->bytes + (a - p->address);
    }
    return 0;
}
static int64_t bits(uint32_t w, int from, int n) { return (int64_t)((uint64_t)w << (64 - from - n)) >> (64 - n); }
#define SET(v) do { uint64_t value = (v); if (rd) x[rd] = value; pc += 4; } while (0)
#define LOAD(type) do { uint64_t a = x[rs1] + imm; if (a %% sizeof(type)) return 0; uint8_t *p = place(a, sizeof(type), 0, 0); \
    if (!p) return 0; type v; memcpy(&v, p, sizeof v); SET((uint64_t)(int64_t)v); } while (0)
#define STORE(type) do { uint64_t a = x[rs1] + (bits(w, 25, 7) * 32 + rd); if (a %% sizeof(type)) return 0; \
    uint8_t *p = place(a, sizeof(type), 1, 0); if (!p) return 0; type v = (type)x[rs2]; memcpy(p, &v, sizeof v); pc += 4; } while (0)
static int step(void) {
    if (pc %% 4) return 0;
    uint8_t *at = place(pc, 4, 0, 1);
    if (!at) return 0;
    uint32_t w;
    memcpy(&w, at, 4);
    unsigned rd = w >> 7 & 31, f3 = w >> 12 & 7, rs1 = w >> 15 & 31, rs2 = w >> 20 & 31, f7 = w >> 25;
    int64_t imm = bits(w, 20, 12);
    switch (w & 127) {
    case 0x37: SET((uint64_t)(int64_t)(int32_t)(w & 0xfffff000)); return 1;
    case 0x6f: { uint64_t t = pc + (bits(w, 31, 1) * 1048576 | (w & 0xff000) | (w >> 9 & 0x800) | (w >> 20 & 0x7fe));
        if (t %% 4) return 0; uint64_t back = pc + 4; if (rd) x[rd] = back; pc = t; return 1; }
    case 0x67: { if (f3) return 0; uint64_t t = (x[rs1] + imm) & ~1ull; if (t %% 4) return 0; uint64_t back = pc + 4; if (rd) x[rd] = back; pc = t; return 1; }
    case 0x63: { int taken;
        switch (f3) { case 0: taken = x[rs1] == x[rs2]; break; case 1: taken = x[rs1] != x[rs2]; break;
        case 4: taken = (int64_t)x[rs1] < (int64_t)x[rs2]; break; case 5: taken = (int64_t)x[rs1] >= (int64_t)x[rs2]; break;
        case 6: taken = x[rs1] < x[rs2]; break; case 7: taken = x[rs1] >= x[rs2]; break; default: return 0; }
        if (!taken) { pc += 4; return 1; }
        uint64_t t = pc + (bits(w, 31, 1) * 4096 | (w << 4 & 0x800) | (w >> 20 & 0x7e0) | (w >> 7 & 0x1e));
        if (t %% 4) return 0; pc = t; return 1; }
    case 0x03: switch (f3) { case 0: LOAD(int8_t); return 1; case 1: LOAD(int16_t); return 1; case 2: LOAD(int32_t); return 1; case 3: LOAD(int64_t); return 1;
        case 4: LOAD(uint8_t); return 1; case 5: LOAD(uint16_t); return 1; case 6: LOAD(uint32_t); return 1; } return 0;
    case 0x23: switch (f3) { case 0: STORE(uint8_t); return 1; case 1: STORE(uint16_t); return 1; case 2: STORE(uint32_t); return 1; case 3: STORE(uint64_t); return 1; } return 0;
    case 0x13: switch (f3) { case 0: SET(x[rs1] + imm); return 1; case 1: if (w >> 26) return 0; SET(x[rs1] << (w >> 20 & 63)); return 1;
        case 2: SET((int64_t)x[rs1] < imm); return 1; case 3: SET(x[rs1] < (uint64_t)imm); return 1; case 4: SET(x[rs1] ^ imm); return 1;
        case 5: if (w >> 26 == 0) SET(x[rs1] >> (w >> 20 & 63)); else if (w >> 26 == 16) SET((int64_t)x[rs1] >> (w >> 20 & 63)); else return 0; return 1;
        case 6: SET(x[rs1] | imm); return 1; case 7: SET(x[rs1] & imm); return 1; } return 0;
    case 0x33: switch (f7 << 3 | f3) { case 0: SET(x[rs1] + x[rs2]); return 1; case 0x100: SET(x[rs1] - x[rs2]); return 1; case 1: SET(x[rs1] << (x[rs2] & 63)); return 1;
        case 2: SET((int64_t)x[rs1] < (int64_t)x[rs2]); return 1; case 3: SET(x[rs1] < x[rs2]); return 1; case 4: SET(x[rs1] ^ x[rs2]); return 1;
        case 5: SET(x[rs1] >> (x[rs2] & 63)); return 1; case 0x105: SET((int64_t)x[rs1] >> (x[rs2] & 63)); return 1; case 6: SET(x[rs1] | x[rs2]); return 1;
        case 7: SET(x[rs1] & x[rs2]); return 1; case 8: SET(x[rs1] * x[rs2]); return 1; } return 0;
    }
    return 0;
}
int main(int argc, char **argv) {
    uint64_t steps = strtoull(argv[2], 0, 10), done = 0;
    if (!strcmp(argv[1], "memory")) memcpy(code, memory, sizeof memory);
    else if (!strcmp(argv[1], "calls")) memcpy(code, calls, sizeof calls);
    else memcpy(code, arithmetic, sizeof arithmetic);
    stack = calloc(1, 0x1000000); slots = calloc(1, 0x400000);
    parts[0] = (Part){0x10000, sizeof code, code, 1, 1};
    parts[1] = (Part){0x70000000, 0x1000000, stack, 1, 0};
    parts[2] = (Part){0x60000000, 0x400000, slots, 1, 0};
    x[2] = 0x71000000;
    while (done < steps && step()) done++;
    printf("%%llu steps, pc %%llu\n", (unsigned long long)done, (unsigned long long)pc);
    return 0;
}
"""


def words():
    """The words of each loop, as the crate has them."""
    text = (CRATE / "src/loops.rt").read_text()
    return {name: ", ".join(re.findall(r"0x[0-9a-f]{8}", re.search(r"static %s.*?\];" % name.upper(), text, re.S).group(0)))
            for name in LOOPS}


def seconds(program, loop, steps):
    before = time.perf_counter()
    out = subprocess.run([program, loop, str(steps)], capture_output=True, check=True, text=True).stdout
    return time.perf_counter() - before, out


def main():
    built = subprocess.run(["rt", "run", "--", "calls", "1"], cwd=CRATE, stdout=subprocess.DEVNULL, stderr=subprocess.DEVNULL)
    if built.returncode:
        print("machine.py: bench_loops is not built", file=sys.stderr)
        return 1
    with tempfile.TemporaryDirectory() as folder:
        source, peer = pathlib.Path(folder) / "peer.c", pathlib.Path(folder) / "peer"
        source.write_text(INTERPRETER % words())
        subprocess.run(["cc", "-O2", "-o", peer, source], check=True)
        print(f"{'loop':12}{'C, M/s':>10}{'machine, M/s':>14}{'ratio':>8}")
        for loop in LOOPS:
            rates = {}
            for name, program in (("C", peer), ("machine", CRATE / "out/bench_loops")):
                took, said = [], set()
                for _ in range(5):
                    few, _ = seconds(program, loop, FEW)
                    many, out = seconds(program, loop, MANY)
                    took.append(many - few)
                    said.add(out)
                rates[name] = (MANY / min(took) / 1e6, said)
            if rates["C"][1] != rates["machine"][1]:
                print(f"machine.py: the two end differently on {loop}", file=sys.stderr)
                return 1
            print(f"{loop:12}{rates['C'][0]:10.0f}{rates['machine'][0]:14.0f}{rates['machine'][0] / rates['C'][0]:8.2f}")
    return 0


if __name__ == "__main__":
    sys.exit(main())
