; A table of low halves and one of high halves, of which nothing is said.
; expect: code 47 of 47, constants as code 0 of 6, halves 0 right 0 wrong, rows 0 right 0 wrong, follows 12 of 12, wrong 0, runs 7 of 7
        .code
        ldx     #$02
next:   lda     lows,x
        sta     $80
        lda     highs,x
        sta     $81
        jsr     call
        dex
        bpl     next
        lda     $82
        jmp     exit
call:   jmp     ($0080)
one:    inc     $82
        inc     $82
        inc     $82
        rts
two:    asl     $82
        inc     $82
        asl     $82
        rts
three:  lda     #$03
        sta     $82
        inx
        dex
        rts
        .include "sim65.inc"
        .rodata
lows:   .lobytes one,two,three
highs:  .hibytes one,two,three
