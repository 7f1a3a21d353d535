"""The compilers for RISC-V that are installed, and how one of them makes an image for `ehc exec`."""
import dataclasses
import pathlib
import re
import shutil
import subprocess

HERE = pathlib.Path(__file__).resolve().parent
CROSS = "riscv64-linux-gnu-"
TARGET = ["-march=rv64im", "-mabi=lp64", "-mno-relax"]
# No register but sp has a value at the entry and nothing relocates an image; nothing is in the library that a builtin or a guard of a static variable would
# call; each type record is a section of its own, for the linker's script.
FLAGS = [
    *TARGET, "-fno-pic", "-fno-pie", "-mcmodel=medany", "-fno-builtin", "-fno-stack-protector", "-fdata-sections", "-fexceptions",
    "-fno-threadsafe-statics", "-fasynchronous-unwind-tables",
]
PARTS = ["calls.s", "handlers.cpp", "lists.cpp", "library.cpp"]
# What a linker misses, and what of a source wants it.
MISSING = {
    r"__vmi_class_type_info": "a class has several bases or a virtual one, which type records with one base cannot say",
    r"__pointer_type_info|typeinfo for .*\*|_ZTIP": "a pointer is thrown or caught, whose type record has no place for a base",
    r"__dynamic_cast": "dynamic_cast is not in the kit",
    r"__(add|sub|mul|div|float|fix|extend|trunc|eq|ne|lt|le|gt|ge)\w*[sdt]f": "the machine has no floating point, and the kit none in software",
}


class Failed(Exception):
    """What is to be told, and the status of the script."""

    def __init__(self, message, status=1):
        super().__init__(message)
        self.status = status


@dataclasses.dataclass
class Compiler:
    name: str
    words: list
    linker: list
    # where the parts of the kit are
    folder: pathlib.Path = HERE

    def objects(self, files, options, room, prefix=""):
        """The object of each file: of assembly, of C++ by these options, or the file itself where it is one."""
        return [self.object(file, options, room / f"{prefix}{number}.o") for number, file in enumerate(files)]

    def object(self, file, options, out):
        kind = pathlib.Path(file).suffix
        if kind == ".o":
            return file
        how = TARGET if kind in (".s", ".S") else [*FLAGS, *options, "-include", self.folder / "ehc.h", "-x", "c++"]
        self.run([*self.words, *how, "-c", file, "-o", out], f"{file} does not compile")
        return out

    def kit(self, room):
        """The objects of the kit."""
        return self.objects([self.folder / part for part in PARTS], ["-std=c++11", "-O1"], room, "kit-")

    def link(self, objects, image):
        self.run([*self.linker, "-T", self.folder / "image.ld", "--eh-frame-hdr", "-o", image, *objects], "the image does not link")

    def run(self, words, why):
        done = subprocess.run([str(it) for it in words], capture_output=True, text=True)
        if done.returncode:
            reasons = [reason for symbol, reason in MISSING.items() if re.search(f"undefined (reference|symbol).*({symbol})", done.stderr)]
            raise Failed("\n".join([done.stderr.rstrip(), f"link: {why}", *(f"link: {it}" for it in reasons)]))


def gcc():
    """g++ and its linker, if they are installed."""
    tools = [CROSS + "g++", CROSS + "ld"]
    return Compiler("g++", tools[:1], [*tools[1:], "--no-relax"]) if all(map(shutil.which, tools)) else None


def clang():
    """clang and a linker for RISC-V, if they are installed."""
    linker = next((it for it in ("ld.lld", CROSS + "ld") if shutil.which(it)), None)
    return Compiler("clang", ["clang++", "--target=riscv64-linux-gnu"], [linker, "--no-relax"]) if linker and shutil.which("clang++") else None


def installed():
    return [it for it in (gcc(), clang()) if it]


def chosen(wants_clang):
    found = clang() if wants_clang else gcc() or clang()
    if found:
        return found
    wanted = "clang and lld" if wants_clang else "g++-riscv64-linux-gnu, or clang and lld"
    raise Failed(f"link: no compiler for RISC-V is here: install {wanted}", 69)
