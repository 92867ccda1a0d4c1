; Tables of halves, of which one entry is an instruction in the operand of a `bit`, as the byte $2C makes it.
; A nop before that one is what the byte hides then.
; expect: code 42 of 42, constants as code 0 of 8, halves 0 right 0 wrong, rows 0 right 0 wrong, follows 12 of 12, wrong 0, runs 6 of 7
        .code
        ldx     #$02
next:   jsr     call
        dex
        bpl     next
        lda     $82
        jmp     exit
call:   lda     lows,x
        sta     $80
        lda     highs,x
        sta     $81
        jmp     ($0080)
        .include "sim65.inc"
        .rodata
        .byte   $02
        .code
one:    lda     #$01
        .byte   $2C
two:    lda     #$02
        clc
        adc     $82
        sta     $82
        rts
        .rodata
        .byte   $02
        .code
three:  lda     #$04
        sta     $82
        rts
        .rodata
lows:   .lobytes one,two,three
highs:  .hibytes one,two,three
