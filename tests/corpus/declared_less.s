; Tables of halves of the information file, less one: only the addresses after them have names.
; expect: code 31 of 31, constants as code 0 of 6, halves 0 right 0 wrong, rows 0 right 0 wrong, follows 10 of 10, wrong 0, runs 6 of 6
; info: #: HALVES { LOW @lows; HIGH @highs; SIZE 2; };
; info: LABEL { ADDR @one; NAME "one"; };
; info: LABEL { ADDR @two; NAME "two"; };
        .code
        ldx     #$01
next:   jsr     call
        dex
        bpl     next
        lda     $82
        jmp     exit
call:   ldy     lows,x
        lda     highs,x
        pha
        tya
        pha
        rts
        .include "sim65.inc"
        .rodata
lows:   .lobytes two-1,one-1
highs:  .hibytes two-1,one-1
        .byte   $02
        .code
one:    lda     #$05
        sta     $82
        rts
        .rodata
        .byte   $02
        .code
two:    inc     $82
        rts
