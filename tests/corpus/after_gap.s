; Variables right behind the image, and an operand far behind these, as of a screen: that one does not move.
; expect: code 17 of 17, constants as code 0 of 0, halves 0 right 0 wrong, rows 0 right 0 wrong, follows 6 of 6, wrong 0, runs 2 of 2
        .code
        lda     #$05
        sta     count
        inc     count
        lda     count
        sta     screen
        jmp     exit
        .include "sim65.inc"
        .bss
count:  .res    1
screen = $2400
