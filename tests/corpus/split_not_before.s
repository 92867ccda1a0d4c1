; A table of halves whose first entry leads to no code is none that begins later: what follows the second entry is no table.
; expect: code 19 of 24, constants as code 0 of 12, halves 0 right 0 wrong, rows 0 right 0 wrong, follows 6 of 10, wrong 0, runs 0 of 3
        .code
        ldx     #$01
        jsr     call
        lda     $82
        jmp     exit
call:   lda     highs,x
        pha
        lda     lows,x
        pha
        rts
        .include "sim65.inc"
        .rodata
        .byte   $02
lows:   .lobytes none-1,one-1
        .byte   $02,$03,$04
highs:  .hibytes none-1,one-1
        .byte   $02,$12,$22
none:   .byte   $02
        .code
one:    lda     #$01
        sta     $82
        rts
