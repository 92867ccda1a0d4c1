; Halves that are stored through a pointer, with other instructions and a branch between them.
; expect: code 72 of 72, constants as code 0 of 6, halves 1 right 0 wrong, rows 0 right 0 wrong, follows 4 of 4, wrong 0, runs 5 of 5
        .code
        ldx     #$FF
        txs
        ldx     #$90
        stx     $80
        ldy     #$00
        sty     $81
        lda     #<text
        ldy     #$02
        sta     ($80),y
        iny
        lda     $92
        beq     done
        lda     #>text
        sta     ($80),y
        ldy     #$00
next:   lda     ($92),y
        beq     done
        jsr     putchar
        iny
        bne     next
done:   lda     #$00
        jmp     exit
        .include "sim65.inc"
        .rodata
text:   .byte   "HELLO",0
