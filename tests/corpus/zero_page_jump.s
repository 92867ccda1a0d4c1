; A jump into the zero page, to which the program has copied a routine.
; expect: code 37 of 37, constants as code 0 of 2, halves 2 right 0 wrong, rows 0 right 0 wrong, follows 4 of 4, wrong 0, runs 4 of 4
        .code
        lda     #$4C
        sta     $90
        lda     #<back
        sta     $91
        lda     #>back
        sta     $92
        lda     #<lead
        ldx     #>lead
        sta     $80
        stx     $81
        jmp     ($0080)
        .rodata
        .byte   $02
        .code
lead:   ldx     #$03
        inx
        inx
        jmp     $0090
        .rodata
        .byte   $02
        .code
back:   txa
        clc
        adc     #$01
        jmp     exit
        .include "sim65.inc"
