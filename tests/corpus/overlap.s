; Of two halves whose routines share bytes the one of the lower address counts: the other lies in its instruction then.
; expect: code 31 of 31, constants as code 0 of 1, halves 1 right 0 wrong, rows 0 right 0 wrong, follows 2 of 4, wrong 0, runs 0 of 3
; should be: code 31 of 31, follows 4 of 4
        .code
        lda     #<two
        ldx     #>two
        sta     $80
        stx     $81
        lda     #<one
        ldx     #>one
        sta     $82
        stx     $83
        jmp     ($0082)
        .rodata
        .byte   $02
        .code
one:    .byte   $2C
two:    lda     #$05
        sta     $84
        inc     $84
        lda     $84
        jmp     exit
        .include "sim65.inc"
