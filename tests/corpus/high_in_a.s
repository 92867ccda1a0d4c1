; Halves in two registers, of which A has the high one.
; expect: code 15 of 15, constants as code 0 of 4, halves 0 right 0 wrong, rows 0 right 0 wrong, follows 0 of 2, wrong 0, runs 0 of 2
        .code
        ldx     #<table
        lda     #>table
        stx     $80
        sta     $81
        ldy     #$02
        lda     ($80),y
        jmp     exit
        .include "sim65.inc"
        .rodata
table:  .byte   1,2,3,4
