; Halves that are stored to a variable after the image: the variable and the routine both follow.
; expect: code 20 of 20, constants as code 0 of 1, halves 1 right 0 wrong, rows 0 right 0 wrong, follows 8 of 8, wrong 0, runs 3 of 3
        .code
        lda     #>handler
        sta     vector+1
        lda     #<handler
        sta     vector
        jmp     (vector)
        .rodata
        .byte   $02
        .code
handler:
        ldx     #$03
        inx
        txa
        jmp     exit
        .include "sim65.inc"
        .bss
vector: .res    2
