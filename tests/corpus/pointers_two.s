; Two words that are where texts begin, and a third one within a text: they may be numbers.
; expect: code 6 of 6, constants as code 0 of 20, halves 0 right 0 wrong, rows 0 right 0 wrong, follows 2 of 2, wrong 0, runs 2 of 2
        .code
        lda     numbers
        jmp     exit
        .include "sim65.inc"
        .rodata
numbers: .word  $1010,$1016,$1018
        .byte   0
        .byte   "FIRST",0
        .byte   "SECOND",0
