; The byte $2C in code that only halves lead to.
; expect: code 23 of 23, constants as code 0 of 1, halves 1 right 0 wrong, rows 0 right 0 wrong, follows 2 of 2, wrong 0, runs 4 of 4
        .code
        lda     #<routine
        sta     $80
        lda     #>routine
        sta     $81
        jmp     ($0080)
        .rodata
        .byte   $02
        .code
routine:
        lda     $80
        bne     two
        lda     #$01
        .byte   $2C
two:    lda     #$02
        jmp     exit
        .include "sim65.inc"
