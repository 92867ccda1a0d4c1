; Numbers that are stored through a pointer, with a call between them that may change where to.
; expect: code 28 of 28, constants as code 0 of 4, halves 0 right 0 wrong, rows 0 right 0 wrong, follows 2 of 2, wrong 0, runs 3 of 3
        .code
        ldx     #$90
        stx     $80
        ldy     #$00
        sty     $81
        lda     #$18
        sta     ($80),y
        iny
        jsr     change
        lda     #$10
        sta     ($80),y
        lda     $90
        jmp     exit
change: ldy     #$04
        rts
        .include "sim65.inc"
        .rodata
        .byte   1,2,3,4
