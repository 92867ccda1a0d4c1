; Three words less one that lead to code, to which nothing else leads, are a table: the end of the image is its end.
; expect: code 20 of 20, constants as code 0 of 10, halves 0 right 0 wrong, rows 1 right 0 wrong, follows 6 of 6, wrong 0, runs 5 of 5
        .code
        lda     #$00
        jmp     exit
        .include "sim65.inc"
        .rodata
        .byte   $02
        .code
one:    lda     #$05
        sta     $80
        rts
        .rodata
        .byte   $02
        .code
two:    lda     $80
        asl     $80
        rts
        .rodata
        .byte   $02
        .code
three:  inc     $80
        ldx     $80
        rts
        .rodata
        .byte   $02
        .addr   one-1,two-1,three-1
