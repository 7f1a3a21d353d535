// Tables of several forms by another compiler, without any library. Built by g++ 12.2, as and ld 2.40, and llvm-objcopy 14.0.6:
//   riscv64-linux-gnu-g++ -std=c++03 -Os -mno-relax -mno-riscv-attribute -fno-pic -S packed_tables.cpp -o fixed.s
//   sed -i 's/\.byte\t0x9b/.byte\t0x1b/; s/4byte\tDW\.ref\./4byte\t/' fixed.s
//   riscv64-linux-gnu-g++ -mno-relax -Wa,-mno-arch-attr -static -nostdlib -Wl,--eh-frame-hdr,-z,max-page-size=64,--build-id=none fixed.s -o packed_tables.elf
//   riscv64-linux-gnu-g++ -std=c++03 -Os -mno-relax -mno-riscv-attribute -fpie -S packed_tables.cpp -o anywhere.s
//   riscv64-linux-gnu-g++ -mno-relax -Wa,-mno-arch-attr -static-pie -nostdlib -Wl,--eh-frame-hdr,-z,max-page-size=64,--build-id=none,--no-dynamic-linker anywhere.s -o packed_tables_anywhere.elf
//   llvm-objcopy --strip-sections packed_tables.elf; llvm-objcopy --strip-sections packed_tables_anywhere.elf
// g++ names each type by a word that holds its address; the line with sed names the types themselves, as their entries can.
struct Base { int value; };
struct Derived : Base { int more; };
struct Lock { ~Lock(); };
void work(int n);

// Cleanups alone.
void cleaned(int n) {
    Lock outer;
    work(n);
    Lock inner;
    work(n + 1);
    work(n + 2);
}

// Neighbouring calls under one handler for each of two types.
int caught(int n) {
    try {
        work(n);
        work(n + 1);
    } catch (Derived &) {
        return 1;
    } catch (Base &) {
        return 2;
    }
    return 0;
}

// Chains that end alike.
int nested(int n) {
    try {
        try {
            work(n);
        } catch (Derived &) {
            work(n + 1);
        }
        work(n + 2);
    } catch (Base &) {
        return 1;
    } catch (...) {
        return 2;
    }
    return 0;
}

// An exception specification.
void listed(int n) throw(Base, Derived) { work(n); }

// The symbols that they want, and the entry, without frames.
asm(".text\n"
    ".globl _start, _Z4worki, _ZN4LockD1Ev, __gxx_personality_v0, _Unwind_Resume\n"
    ".globl __cxa_begin_catch, __cxa_end_catch, __cxa_call_unexpected\n"
    "_start: _Z4worki: _ZN4LockD1Ev: __gxx_personality_v0: _Unwind_Resume:\n"
    "__cxa_begin_catch: __cxa_end_catch: __cxa_call_unexpected: ret\n"
    ".section .rodata\n"
    ".globl _ZTVN10__cxxabiv117__class_type_infoE, _ZTVN10__cxxabiv120__si_class_type_infoE\n"
    "_ZTVN10__cxxabiv117__class_type_infoE: _ZTVN10__cxxabiv120__si_class_type_infoE: .dword 0, 0, 0\n"
    ".section .eh_frame.end, \"a\"\n"
    ".4byte 0\n"
    ".text\n");
