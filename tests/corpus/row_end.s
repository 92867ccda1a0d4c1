; Three words that are addresses of routines are a table of addresses, though no code reads them. It ends the image.
; expect: code 25 of 25, constants as code 0 of 6, halves 0 right 0 wrong, rows 1 right 0 wrong, follows 12 of 12, wrong 0, runs 5 of 5
        .code
        jsr     one
        jsr     two
        jsr     three
        lda     $80
        jmp     exit
one:    lda     #$05
        sta     $80
        rts
two:    asl     $80
        rts
three:  inc     $80
        rts
        .include "sim65.inc"
        .rodata
        .addr   one,two,three
