; Halves in Y and then in X are an address if other halves have it.
; expect: code 29 of 29, constants as code 0 of 4, halves 2 right 0 wrong, rows 0 right 0 wrong, follows 6 of 6, wrong 0, runs 3 of 3
        .code
        lda     #<table
        sta     $80
        lda     #>table
        sta     $81
        jsr     again
        jmp     exit
again:  ldy     #>table
        ldx     #<table
        stx     $82
        sty     $83
        ldy     #$02
        lda     ($82),y
        cmp     ($80),y
        rts
        .include "sim65.inc"
        .rodata
table:  .byte   1,2,3,4
