// void step(uint8_t *z, const void *code): Z0 to Z31 from z, then the code, then Z0 to Z31 back to z.
//
// void step_za(uint8_t *z, const void *code, uint8_t *za, const uint32_t *w): the same in streaming mode, with ZA from
// za and back, and with W8 to W11 from w.
//
// The code is one word and a return. A word of A, B or C changes vector registers only, and one of D or E changes ZA
// only, so the arguments are still in their registers after it.
    .arch armv8.5-a+sve2+sme
    .text

    .macro each_z operation
    .irp r, 0,1,2,3,4,5,6,7,8,9,10,11,12,13,14,15,16,17,18,19,20,21,22,23,24,25,26,27,28,29,30,31
    \operation z\r, [x0, #\r, mul vl]
    .endr
    .endm

    // ZA has as many vectors as a vector has bytes.
    .macro each_za operation
    rdsvl x4, #1
    mov x5, x2
    mov w12, #0
1:  \operation za[w12, 0], [x5]
    add x5, x5, x4
    add w12, w12, #1
    cmp w12, w4
    b.lo 1b
    .endm

    .macro enter
    stp x29, x30, [sp, #-80]!
    stp d8, d9, [sp, #16]      // the callee keeps the low halves of these eight
    stp d10, d11, [sp, #32]
    stp d12, d13, [sp, #48]
    stp d14, d15, [sp, #64]
    .endm

    .macro leave
    ldp d8, d9, [sp, #16]
    ldp d10, d11, [sp, #32]
    ldp d12, d13, [sp, #48]
    ldp d14, d15, [sp, #64]
    ldp x29, x30, [sp], #80
    ret
    .endm

    .global step
    .type step, %function
step:
    enter
    each_z ldr
    blr x1
    each_z str
    leave
    .size step, . - step

    // Entering and leaving streaming mode clears Z, and a system call would leave it: all is between the two.
    .global step_za
    .type step_za, %function
step_za:
    enter
    smstart
    each_za ldr
    each_z ldr
    ldp w8, w9, [x3]
    ldp w10, w11, [x3, #8]
    blr x1
    each_z str
    each_za str
    smstop
    leave
    .size step_za, . - step_za

    .section .note.GNU-stack, "", %progbits
