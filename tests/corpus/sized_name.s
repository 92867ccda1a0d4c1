; Halves of an address within a name that has a size, as in `<(table+1)`.
; expect: code 18 of 18, constants as code 0 of 4, halves 1 right 0 wrong, rows 0 right 0 wrong, follows 2 of 2, wrong 0, runs 2 of 2
; info: LABEL { ADDR @table; NAME "table"; SIZE 4; };
        .code
        ldx     #$FF
        txs
        lda     #<(table+1)
        ldx     #>(table+1)
        sta     $80
        stx     $81
        ldy     #$00
        lda     ($80),y
        jmp     exit
        .include "sim65.inc"
        .rodata
table:  .byte   1,2,3,4
