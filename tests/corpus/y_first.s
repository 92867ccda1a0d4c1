; Halves in Y and then in X are two numbers more often than an address: they are only likely one.
; expect: code 15 of 15, constants as code 0 of 4, halves 0 right 0 wrong, rows 0 right 0 wrong, follows 0 of 2, wrong 0, runs 0 of 2
        .code
        ldy     #>table
        ldx     #<table
        stx     $80
        sty     $81
        ldy     #$02
        lda     ($80),y
        jmp     exit
        .include "sim65.inc"
        .rodata
table:  .byte   1,2,3,4
