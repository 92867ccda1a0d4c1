; Two words that lead to code go on over no return alone: they are no row, and nothing joins.
; expect: code 5 of 16, constants as code 0 of 11, halves 0 right 0 wrong, rows 0 right 0 wrong, follows 0 of 6, wrong 0, runs 2 of 2
        .code
        lda     #$00
        jmp     exit
        .include "sim65.inc"
        .rodata
        .byte   $02
        .code
one:    lda     #$05
        sta     $80
        rts
        .rodata
        .byte   $02
        .code
none:   rts
        .rodata
        .byte   $02
        .code
two:    lda     $80
        asl     $80
        rts
        .rodata
        .byte   $02
        .addr   one,two,none
        .byte   $02
