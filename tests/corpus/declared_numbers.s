; Tables of halves of the information file that code reads as addresses of numbers: these are no code, though they would read as such.
; expect: code 19 of 19, constants as code 0 of 8, halves 0 right 0 wrong, rows 0 right 0 wrong, follows 8 of 8, wrong 0, runs 2 of 2
; info: #: HALVES { LOW @lows; HIGH @highs; SIZE 2; };
        .code
        ldx     #$01
        lda     lows,x
        sta     $80
        lda     highs,x
        sta     $81
        ldy     #$00
        lda     ($80),y
        jmp     exit
        .include "sim65.inc"
        .rodata
lows:   .lobytes one,two
highs:  .hibytes one,two
one:    .byte   $60,$02
two:    .byte   $60,$02
