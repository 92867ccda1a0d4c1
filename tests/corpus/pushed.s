; Halves less one that are pushed before `rts`, and what they lead to.
; expect: code 15 of 15, constants as code 0 of 1, halves 1 right 0 wrong, rows 0 right 0 wrong, follows 2 of 2, wrong 0, runs 3 of 3
        .code
        lda     #>(routine-1)
        pha
        lda     #<(routine-1)
        pha
        rts
        .rodata
        .byte   $02
        .code
routine:
        ldx     #$03
        inx
        inx
        txa
        jmp     exit
        .include "sim65.inc"
