; Three words that are where short texts begin are no addresses by themselves, if two are the same.
; expect: code 6 of 6, constants as code 0 of 12, halves 0 right 0 wrong, rows 0 right 0 wrong, follows 2 of 2, wrong 0, runs 2 of 2
        .code
start:  lda     numbers
        jmp     exit
        .include "sim65.inc"
        .rodata
        .byte   0
one:    .byte   "N",0
two:    .byte   "S",0
numbers:
        .word   $1000+(one-start),$1000+(two-start),$1000+(one-start)
        .byte   2
