#!/usr/bin/env python3
"""Times `ehc check`, `ehc dump`, `ehc doubts`, `ehc at` and `ehc frames` on a large static RISC-V program beside readelf and llvm-dwarfdump.

The program is C++ with many functions that throw and catch, built here by a cross-compiler with a table of frames
(`--eh-frame-hdr`), and its frames for debuggers, which a second image keeps. Where there is no g++ for RISC-V, clang and lld
build it without any library, by stand-ins for what it needs of one. Each command runs several times, its
output to a pipe that is read whole; the least time counts. Where there is neither, nothing is measured.
What is built lies in a folder of its own.
"""
import pathlib
import shutil
import subprocess
import sys
import tempfile
import time

from building import program, run

TOP = pathlib.Path(__file__).resolve().parent.parent
CROSS, RUNS, SIZES = "riscv64-linux-gnu-", 7, [500, 4_000]


BOTH_FORMS = 'asm(".cfi_sections .eh_frame, .debug_frame");\n'
GUARD = """struct Guard { int n; explicit Guard(int k) : n(k) {} ~Guard(); };
volatile int calls;
Guard::~Guard() { calls = calls + n; }
void (*volatile work)(int);
int f0(int n) { work(n); return n; }
"""
# What the program needs of a library; weak, so that the compiler does not conclude that nothing throws.
STAND_INS = """asm(".globl _ZTIi\\n.section .rodata\\n_ZTIi: .quad 0, 0\\n.text");
#define WEAK __attribute__((weak))
extern "C" {
WEAK int __gxx_personality_v0(...) { return 0; }
WEAK void _Unwind_Resume(void *) { __builtin_trap(); }
WEAK void *__cxa_begin_catch(void *object) { return object; }
WEAK void __cxa_end_catch() { }
WEAK void __cxa_rethrow() { __builtin_trap(); }
}
namespace std { void terminate() { __builtin_trap(); } }
int main(int, char**);
extern "C" int _start() { return main(0, nullptr); }
"""
CLANG = ["clang++", "--target=riscv64-unknown-elf", "-march=rv64im", "-mno-relax", "-O1", "-fexceptions", "-fPIE", "-fno-rtti", "-fno-inline"]


def source_of(functions, before):
    """C++ with so many functions, each with two objects and two handlers, of which one may throw on."""
    parts = [BOTH_FORMS, before, GUARD]
    for i in range(1, functions + 1):
        parts.append(f"int f{i}(int n) {{ Guard g({i}); try {{ Guard h(n); return f{i - 1}(n - 1); }} catch (int e) "
                     f"{{ if (e > {i}) throw; return e; }} catch (...) {{ return {i}; }} }}\n")
    parts.append(f"int main(int c, char**) {{ return f{functions}(c); }}\n")
    return "".join(parts)


def build(folder, functions):
    """The program without and with its frames for debuggers, all else stripped off."""
    source, image, both = folder / "large.cc", folder / "large", folder / "both"
    if shutil.which(CROSS + "g++"):
        source.write_text(source_of(functions, ""))
        run([CROSS + "g++", "-O1", "-static", "-Wl,--eh-frame-hdr", "-o", both, source])
    else:
        source.write_text(source_of(functions, STAND_INS))
        run([*CLANG, "-nostdlib", "-c", "-o", folder / "large.o", source])
        run(["ld.lld", "-static", "--eh-frame-hdr", "-e", "_start", "-o", both, folder / "large.o"])
    strip = CROSS + "strip" if shutil.which(CROSS + "strip") else "llvm-strip"
    run([strip, "-o", image, both])
    run([strip, "--strip-all", "--keep-section=.debug_frame", both])
    return image, both


def least_seconds(command):
    times = []
    for _ in range(RUNS):
        start = time.perf_counter()
        done = subprocess.run(command, capture_output=True)
        times.append(time.perf_counter() - start)
        if done.returncode:
            sys.exit(f"{command[0]} answered {done.returncode}: {done.stderr.decode()[:300]}")
    return min(times), done.stdout


def main():
    if not shutil.which(CROSS + "g++") and not (shutil.which("clang++") and shutil.which("ld.lld")):
        sys.exit(f"neither {CROSS}g++ nor clang++ with ld.lld is here: nothing is measured")
    built = subprocess.run([TOP / "ehc", "run", TOP / "examples/smallest.cc"], stdout=subprocess.DEVNULL)
    if built.returncode:
        sys.exit("ehc could not be built")
    ehc = program()
    print(f"{'image':>9}{'frames':>9}  {'command':34}{'least ms':>10}{'MB/s':>9}")
    with tempfile.TemporaryDirectory() as folder:
        for functions in SIZES:
            image, both = build(pathlib.Path(folder), functions)
            size = image.stat().st_size / 1e6
            frames = least_seconds([ehc, "check", image])[1].decode().split()[3]
            places = [line.split()[2] for line in least_seconds([ehc, "dump", image])[1].decode().splitlines() if line.startswith("frame ")]
            for name, command in [
                ("ehc check", [ehc, "check", image]),
                ("ehc doubts", [ehc, "doubts", image]),
                ("ehc at, three places", [ehc, "at", image, places[0], places[len(places) // 2], places[-1]]),
                ("ehc dump", [ehc, "dump", image]),
                ("readelf --debug-dump=frames", ["readelf", "--debug-dump=frames", image]),
                ("llvm-dwarfdump --eh-frame", ["llvm-dwarfdump", "--eh-frame", image]),
                ("ehc frames", [ehc, "frames", both]),
                ("readelf, both forms", ["readelf", "--debug-dump=frames", both]),
            ]:
                if shutil.which(str(command[0])):
                    seconds = least_seconds(command)[0]
                    print(f"{size:6.2f} MB{frames:>9}  {name:34}{1000 * seconds:10.1f}{size / seconds:9.1f}")


if __name__ == "__main__":
    main()
