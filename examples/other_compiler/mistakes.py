"""Mistakes of a backend, and what one sees of each. docs/OTHER_COMPILERS.md tells them.

Each changes a text of the kit in a copy of it and links a case with that; what `exec` prints then begins as it is said here.
"""
import dataclasses


@dataclasses.dataclass
class Mistake:
    what: str
    file: str
    text: str
    other: str
    case: str
    begins: str


MISTAKES = [
    Mistake("a function that throws has no frame", "calls.s", "        runtime __cxa_throw,                5\n",
            "        .globl __cxa_throw\n__cxa_throw:\n        li a7, 5\n        ecall\n", "virtual.cpp", "= aborted"),
    Mistake("nothing says that the entry is outermost", "calls.s", "        .cfi_undefined ra\n", "", "terminate.cc", "2\n= fault walk"),
    Mistake("sp moves and the row does not say so", "calls.s", "        li      a7, \\number\n        ecall\n",
            "        addi    sp, sp, -16\n        li      a7, \\number\n        ecall\n        addi    sp, sp, 16\n", "virtual.cpp", "8\n4\n1\n36\n6\n1\n9\n3\n1\n= fault unmapped"),
    Mistake("the stub has no exception table", "calls.s", "        .cfi_personality 0x1b, __gxx_personality_v0\n        .cfi_lsda 0x1b, without_sites\n", "",
            "terminate_throws.cc", "7\n4\n= exit 0"),
    Mistake("the image has no record", "image.ld", "record 0x6e485831;", "record 0x6e485832;", "virtual.cpp", "ehc: image refused: 67 at 0\n"),
    Mistake("the record has another format", "calls.s", "1, ehc_terminate, ", "2, ehc_terminate, ", "virtual.cpp", "ehc: image refused: 68 at "),
    Mistake("the stub stands at no multiple of 4", "calls.s", "1, ehc_terminate, ", "1, ehc_terminate + 2, ", "virtual.cpp", "ehc: image refused: 68 at "),
    Mistake("the frames have no header", "image.ld", " :code :frames\n", " :code\n", "virtual.cpp", "ehc: image refused: 66 at 0\n"),
    Mistake("the tables may be written", "image.ld", "FLAGS(5)", "FLAGS(7)", "virtual.cpp", "ehc: image refused: 69 at "),
    Mistake("a segment lies below 0x10000", "image.ld", ". = 0x10000 + SIZEOF_HEADERS", ". = 0x1000 + SIZEOF_HEADERS", "virtual.cpp", "ehc: image refused: 64 at "),
    Mistake("type records stand one behind the other", "image.ld", "SUBALIGN(32)", "SUBALIGN(8)", "key_function.cpp", "= fault call"),
    Mistake("a call has a number that the runtime does not have", "calls.s", "write_int,                  1\n", "write_int,                 21\n", "virtual.cpp", "= fault call"),
]
