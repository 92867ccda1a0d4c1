; A table of numbers: none of them is the address of a routine, though some lie in the image.
; expect: code 15 of 15, constants as code 0 of 18, halves 0 right 0 wrong, rows 0 right 0 wrong, follows 2 of 2, wrong 0, runs 3 of 3
        .code
        ldx     #$00
        txa
next:   clc
        adc     powers,x
        inx
        cpx     #$0A
        bne     next
        jmp     exit
        .include "sim65.inc"
        .rodata
powers: .word   10000,4098,4102,4101,1000,100,10,1,4100
