// An image of another producer: a cleanup, a handler for everything, and the few symbols that they want, without any library. Built by
//   clang++ --target=riscv64-unknown-elf -march=rv64im -mno-relax -O1 -fno-rtti -fPIE -fno-inline -nostdlib -c other_producer.cpp -o other.o
//   ld.lld -static --eh-frame-hdr -e _start -s -o other_producer.elf other.o
// with clang and ld.lld 14.0.6. In other_producer_damaged.elf one byte is another, so that a landing pad lies outside of all code:
//   cp other_producer.elf other_producer_damaged.elf; printf '\001' | dd of=other_producer_damaged.elf bs=1 seek=413 conv=notrunc
// In other_producer_doubted.elf a landing pad lies in the middle of an instruction:
//   cp other_producer.elf other_producer_doubted.elf; printf '\042' | dd of=other_producer_doubted.elf bs=1 seek=433 conv=notrunc
// both_forms.elf has the frames for debuggers too: with -S in place of -c and -o other.s above, then
//   sed -i '1i .cfi_sections .eh_frame, .debug_frame' other.s
//   clang --target=riscv64-unknown-elf -march=rv64im -mno-relax -gdwarf-4 -c other.s -o other.o
//   ld.lld -static --eh-frame-hdr -e _start -o both_forms.elf other.o; llvm-objcopy --strip-all --keep-section=.debug_frame both_forms.elf
// With -gdwarf-2 and -gdwarf-3 the CIE there has version 1 and version 3. In both_forms_differ.elf x8 is stored elsewhere in that form:
//   cp both_forms.elf both_forms_differ.elf; printf '\003' | dd of=both_forms_differ.elf bs=1 seek=903 conv=notrunc
// Three that are refused: object.o is not linked, no_end_mark.elf is linked by GNU ld 2.40 without crtend.o, and GNU strip 2.40 took the record of stripped.elf:
//   llvm-objcopy --strip-debug other.o object.o
//   riscv64-linux-gnu-ld -s -z max-page-size=64 -e _start --eh-frame-hdr -o no_end_mark.elf other.o
//   ./ehc compile smallest.cc smallest.elf; riscv64-linux-gnu-strip -o stripped.elf smallest.elf
extern "C" int __gxx_personality_v0(...) { return 0; }
extern "C" void _Unwind_Resume(void *) { for (;;) { } }
extern "C" void *__cxa_begin_catch(void *object) { return object; }
extern "C" void __cxa_end_catch() { }
namespace std { void terminate() { for (;;) { } } }

volatile int count;
void (*volatile work)(int);
struct Lock { ~Lock() { count = count + 1; } };
void guarded(int n) { Lock lock; work(n); }
int caught(int n) { try { guarded(n); } catch (...) { return 1; } return 0; }
extern "C" void _start() { caught(7); for (;;) { } }
