# The loader refuses the library on a processor without x86-64-v2: 'CPU ISA level is lower than required'.
# It looks for this note: GNU_PROPERTY_X86_ISA_1_NEEDED with GNU_PROPERTY_X86_ISA_1_V2.
    .section .note.x86_isa, "a", @note
    .p2align 3
    .long 4, 16, 5
    .asciz "GNU"
    .long 0xc0008002, 4, 2, 0
