# The runtime's calls as functions, the entry, and what the runtime itself asks of an image: the terminate stub, the record, type records.
#
# A raise walks outward from the place of its ECALL, so each function with an ECALL has a frame of its own. None of them moves sp or saves a register, so its row
# is that of an empty frame. Arguments and results stand where the calling convention lp64 has them; two results are a struct of two words.

        .macro  runtime name, number
        .globl  \name
        .type   \name, @function
        .p2align 2
\name:  .cfi_startproc
        li      a7, \number
        ecall
        ret
        .cfi_endproc
        .size   \name, . - \name
        .endm

        .text
        runtime ehc_exit,                   0
        runtime write_int,                  1
        runtime read_byte,                  2
        runtime ehc_allocate,               3
        runtime __cxa_free_exception,       4
        runtime __cxa_throw,                5
        runtime ehc_begin_catch,            6
        runtime ehc_end_catch,              7
        runtime ehc_rethrow,                8
        runtime _Unwind_Resume,             9
        runtime _ZSt18uncaught_exceptionv, 10
        runtime ehc_set_terminate,         11
        runtime ehc_set_unexpected,        12
        runtime _ZSt9terminatev,           13
        runtime __module,                  14
        runtime __cancel,                  15
        runtime abort,                     16
        runtime ehc_stack_is_used_up,      17
        runtime ehc_unexpected_begin,      18
        runtime ehc_unexpected_check,      19
        runtime ehc_terminate_for,         20

# The entry. Nothing is outward of it, as its row says from the first byte on: otherwise the walk of an exception that nobody catches would go on.
        .globl  _start
        .type   _start, @function
        .p2align 2
_start: .cfi_startproc
        .cfi_undefined ra
        call    ehc_initialise
        call    main
        li      a7, 0
        ecall
        .cfi_endproc
        .size   _start, . - _start

# The terminate stub: the runtime sets the pc to it, and a0 to the handler or 0. Its exception table has no site, so that nothing comes out of the handler.
        .type   ehc_terminate, @function
        .p2align 2
ehc_terminate:
        .cfi_startproc
        .cfi_personality 0x1b, __gxx_personality_v0
        .cfi_lsda 0x1b, without_sites
        addi    sp, sp, -16
        .cfi_def_cfa_offset 16
        sd      ra, 8(sp)
        .cfi_offset ra, -8
        beqz    a0, 1f
        jalr    a0
1:      li      a7, 16
        ecall
        .cfi_endproc
        .size   ehc_terminate, . - ehc_terminate

# Frames name a personality routine, and the runtime is the only one that there is: it is never called.
        .globl  __gxx_personality_v0
__gxx_personality_v0:
        ebreak

        .section .gcc_except_table, "a"
        .p2align 2
without_sites:
        .byte   0xff, 0xff, 0x01, 0     # no LPStart, no types, call sites of ULEB128, no byte of them

# The record: its format, the stub, and the type record that a specification means by std::bad_exception.
        .section .ehc, "a"
        .p2align 3
        .dword  1, ehc_terminate, _ZTISt13bad_exception

# Type records of the types that are no classes. The address is the type's identity, and the third word, 0, says that it has no base.
        .macro  type code
        .globl  _ZTI\code
        .section .rodata._ZTI\code, "a"
        .p2align 5
_ZTI\code:
        .dword  0, 0, 0
        .endm
        .irp    code, b, c, a, h, w, s, t, i, j, l, m, x, y, f, d
        type    \code
        .endr

# Compilers let the first word of a class's type record lead to one of these; nothing is called through them.
        .section .rodata.type_vtables, "a"
        .p2align 3
        .globl  _ZTVN10__cxxabiv117__class_type_infoE, _ZTVN10__cxxabiv120__si_class_type_infoE
_ZTVN10__cxxabiv117__class_type_infoE:
_ZTVN10__cxxabiv120__si_class_type_infoE:
        .dword  0, 0, 0
