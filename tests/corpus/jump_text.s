; A text whose bytes are three jumps into the image, where no code stands.
; start: $4400
; expect: code 7 of 7, constants as code 0 of 90, halves 0 right 0 wrong, rows 0 right 0 wrong, follows 0 of 0, wrong 0, runs 2 of 2
        .code
        lda     #$00
        sta     $80
        jmp     exit
        .rodata
        .byte   "LADLBDLCD",$02
        .res    80,$02
        .code
        .include "sim65.inc"
