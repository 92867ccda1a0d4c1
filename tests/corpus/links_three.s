; Three words that lead on, each to the next one: they may be numbers.
; expect: code 6 of 6, constants as code 0 of 12, halves 0 right 0 wrong, rows 0 right 0 wrong, follows 2 of 2, wrong 0, runs 2 of 2
        .code
        lda     numbers
        jmp     exit
        .include "sim65.inc"
        .rodata
numbers: .word  0
        .byte   1
        .word   $1006
        .byte   1
        .word   $1009
        .byte   1
        .word   $100C
        .byte   1
