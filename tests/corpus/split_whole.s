; Tables of halves, one right behind the other, of which one entry leads to what is no code here: the others count nevertheless.
; expect: code 43 of 43, constants as code 0 of 11, halves 0 right 0 wrong, rows 0 right 0 wrong, follows 16 of 16, wrong 0, runs 6 of 6
        .code
        ldx     #$02
        jsr     call
        ldx     #$03
        jsr     call
        lda     $82
        jmp     exit
call:   lda     lows,x
        sta     $80
        lda     highs,x
        sta     $81
        jmp     ($0080)
        .include "sim65.inc"
        .rodata
lows:   .lobytes one,none,two,three
highs:  .hibytes one,none,two,three
none:   .byte   $02
        .code
one:    lda     #$01
        sta     $82
        rts
        .rodata
        .byte   $02
        .code
two:    lda     #$02
        sta     $82
        rts
        .rodata
        .byte   $02
        .code
three:  lda     #$04
        asl     $82
        rts
