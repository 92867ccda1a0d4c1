; Tables of halves whose index begins at 1: the operands lie before them, in data.
; expect: code 41 of 41, constants as code 0 of 10, halves 0 right 0 wrong, rows 0 right 0 wrong, follows 12 of 12, wrong 0, runs 7 of 7
        .code
        ldx     #$03
next:   jsr     call
        dex
        bne     next
        lda     $82
        jmp     exit
call:   lda     lows-1,x
        sta     $80
        lda     highs-1,x
        sta     $81
        jmp     ($0080)
        .include "sim65.inc"
        .rodata
        .byte   $02
lows:   .lobytes one,two,three
highs:  .hibytes one,two,three
        .byte   $02
        .code
one:    lda     #$01
        sta     $82
        rts
        .rodata
        .byte   $02
        .code
two:    asl     $82
        inc     $82
        rts
        .rodata
        .byte   $02
        .code
three:  lda     #$04
        sta     $82
        rts
