; A program below $9000, and an operand at $9005, where a machine has a chip: none of its variables.
; expect: code 16 of 16, constants as code 0 of 0, halves 0 right 0 wrong, rows 0 right 0 wrong, follows 4 of 4, wrong 0, runs 2 of 2
; start: $8F00
        .code
        lda     #$05
        sta     count
        lda     count
        ldx     #$08
        stx     $9005
        jmp     exit
        .include "sim65.inc"
        .bss
        .res    200
count:  .res    1
