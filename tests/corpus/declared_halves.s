; Tables of halves of the information file lead to code, however code reads them. What is no code there is said with its reason.
; expect: code 34 of 34, constants as code 0 of 9, halves 0 right 0 wrong, rows 0 right 0 wrong, follows 12 of 12, wrong 0, runs 6 of 6
; info: #: HALVES { LOW @lows; HIGH @highs; SIZE 3; };
; shows: # @three in the table at @lows is not followed: undefined opcode at @three+1
        .code
        ldx     #$01
next:   ldy     lows,x
        lda     highs,x
        sty     $80
        sta     $81
        jsr     call
        dex
        bpl     next
        lda     $82
        jmp     exit
call:   jmp     ($0080)
        .include "sim65.inc"
        .rodata
lows:   .lobytes two,one,three
highs:  .hibytes two,one,three
three:  .byte   $EA,$02
        .code
one:    lda     #$05
        sta     $82
        rts
        .rodata
        .byte   $02
        .code
two:    inc     $82
        rts
