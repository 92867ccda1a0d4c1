; Words that each lead to the one right behind them are numbers, and no links: those have other bytes between them.
; expect: code 6 of 6, constants as code 0 of 14, halves 0 right 0 wrong, rows 0 right 0 wrong, follows 2 of 2, wrong 0, runs 2 of 2
        .code
        lda     numbers
        jmp     exit
        .include "sim65.inc"
        .rodata
numbers: .word  $1008,$100A,$100C,$100E,$1010,$1012
        .byte   0,0
