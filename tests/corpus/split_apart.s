; Tables of halves with a byte between them: the fourth entry, of that byte and what stands behind the other table, is none.
; expect: code 41 of 41, constants as code 0 of 10, halves 0 right 0 wrong, rows 0 right 0 wrong, follows 12 of 12, wrong 0, runs 7 of 7
        .code
        ldx     #$02
next:   jsr     call
        dex
        bpl     next
        lda     $82
        jmp     exit
call:   lda     lows,x
        sta     $80
        lda     highs,x
        sta     $81
        jmp     ($0080)
        .include "sim65.inc"
        .rodata
lows:   .lobytes one,two,three
        .byte   $02
highs:  .hibytes one,two,three
        .byte   $02
        .code
one:    lda     #$01
        sta     $82
        rts
        .rodata
        .byte   $02
        .code
two:    lda     #$02
        sta     $82
        rts
        .rodata
        .byte   $02
        .code
three:  lda     #$04
        sta     $82
        rts
