; Two numbers that happen to be addresses of routines are taken for a table: nothing in the image tells them apart.
; expect: code 18 of 18, constants as code 0 of 6, halves 0 right 0 wrong, rows 0 right 0 wrong, follows 8 of 8, wrong 0, runs 4 of 4
        .code
        jsr     one
        jsr     two
        lda     numbers
        clc
        adc     numbers+2
        jmp     exit
one:    rts
two:    rts
        .include "sim65.inc"
        .rodata
numbers:
        .word   $1010,$1011,$02FF
