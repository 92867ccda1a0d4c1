; Halves of an address after the image: that of a buffer, which follows.
; expect: code 23 of 23, constants as code 0 of 0, halves 1 right 0 wrong, rows 0 right 0 wrong, follows 2 of 2, wrong 0, runs 3 of 3
        .code
        lda     #<buffer
        sta     $80
        lda     #>buffer
        sta     $81
        ldy     #$40
next:   tya
        sta     ($80),y
        dey
        bne     next
        ldy     #$05
        lda     ($80),y
        jmp     exit
        .include "sim65.inc"
        .bss
buffer: .res    65
