; Tables of halves whose index begins at 16: the operands lie before them, in code. A group BASE says it; the label for it is proposed.
; expect: code 46 of 46, constants as code 0 of 7, halves 0 right 0 wrong, rows 0 right 0 wrong, follows 14 of 14, wrong 0, runs 8 of 8
; info: #: BASE { ADDR @call; FROM @lows; };
; info: #: BASE { ADDR @high; FROM @highs; };
        .code
        jsr     one
        ldx     #$12
next:   jsr     call
        dex
        cpx     #$0F
        bne     next
        lda     $82
        jmp     exit
call:   lda     lows-$10,x
        sta     $80
high:   lda     highs-$10,x
        sta     $81
        jmp     ($0080)
one:    asl     $82
        inc     $82
        rts
        .rodata
lows:   .lobytes one,two,three
highs:  .hibytes one,two,three
        .code
two:    asl     $82
        asl     $82
        rts
        .rodata
        .byte   $02
        .code
three:  lda     #$04
        sta     $82
        rts
        .include "sim65.inc"
