; Much data that decodes, in which each beginning fails only at its end: code after it is found nevertheless.
; expect: code 20 of 20, constants as code 0 of 1201, halves 1 right 0 wrong, rows 0 right 0 wrong, follows 2 of 2, wrong 0, runs 3 of 3
        .code
        lda     #<routine
        ldx     #>routine
        sta     $80
        stx     $81
        jmp     ($0080)
        .rodata
        .res    1200,$E8
        .byte   $02
        .code
routine:
        lda     #$03
        sta     $80
        inc     $80
        jmp     exit
        .include "sim65.inc"
