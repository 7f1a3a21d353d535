# All that an image needs, without the kit: a function throws an int and another one catches it.
# only g++ -O0, clang -O0
        .macro  begin name
        .type   \name, @function
        .globl  \name
        .p2align 2
\name:  .cfi_startproc
        .endm
        .macro  end name
        .cfi_endproc
        .size   \name, . - \name
        .endm

        .text
# Nothing is outward of the entry.
begin _start
        .cfi_undefined ra
        call    main
        li      a7, 0                   # exit
        ecall
end _start

# a0 is the handler or 0.
begin terminate_stub
        .cfi_personality 0x1b, personality
        .cfi_lsda 0x1b, without_sites
        addi    sp, sp, -16
        .cfi_def_cfa_offset 16
        sd      ra, 8(sp)
        .cfi_offset ra, -8
        beqz    a0, 1f
        jalr    a0
1:      li      a7, 16                  # abort
        ecall
end terminate_stub

begin thrower
        li      a7, 3                   # allocate
        ecall
        li      t0, 42
        sw      t0, 0(a0)
        lla     a1, int_type
        li      a2, 0                   # no destructor
        li      a7, 5                   # throw
        ecall
end thrower

begin main
        .cfi_personality 0x1b, personality
        .cfi_lsda 0x1b, of_main
        addi    sp, sp, -32
        .cfi_def_cfa_offset 32
        sd      ra, 24(sp)
        .cfi_offset ra, -8
from:   call    thrower
to:     j       over
pad:    sd      a0, 8(sp)               # the object; the selector in a1 is 1, since the table has no other
        li      a7, 6                   # begin_catch
        ecall
        ld      a0, 8(sp)
        lw      a0, 0(a0)
        li      a7, 1                   # write_int
        ecall
        li      a7, 7                   # end_catch: no other handler has the object, so that it stands in a0
        ecall
        li      a7, 4                   # free
        ecall
over:   li      a0, 0
        ld      ra, 24(sp)
        .cfi_restore ra
        addi    sp, sp, 32
        .cfi_def_cfa_offset 0
        ret
end main

# Frames name it, and it is never called.
personality:
        ebreak

        .section .gcc_except_table, "a"
        .p2align 2
without_sites:
        .byte   0xff, 0xff, 0x01, 0
        .p2align 2
of_main:
        .byte   0xff                    # pads count from the function
        .byte   0x1b, 21                # types are relative, four bytes with a sign; they end 21 bytes on
        .byte   0x03, 13                # call sites of four bytes, 13 bytes of them
        .word   from - main, to - from, pad - main
        .byte   1                       # the action at byte 0
        .byte   1, 0                    # filter 1, and none behind it
        .p2align 2
        .word   int_type - .

        .section .rodata, "a"
        .p2align 3
int_type:
        .dword  0, 0, 0
bad_exception_type:
        .dword  0, 0, 0

        .section .ehc, "a"
        .p2align 3
        .dword  1, terminate_stub, bad_exception_type
