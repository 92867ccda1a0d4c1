; Two loads that are no address: the high half of one, and an index that begins at 0.
; expect: code 55 of 55, constants as code 0 of 6, halves 0 right 0 wrong, rows 0 right 0 wrong, follows 2 of 4, wrong 0, runs 0 of 5
        .code
        ldx     #$FF
        txs
        lda     #<text
        sta     $80
        ldx     #>text
        ldy     #$00
        stx     $81
next:   lda     ($80),y
        beq     done
        jsr     putchar
        iny
        bne     next
done:   jmp     exit
        .include "sim65.inc"
        .rodata
text:   .byte   "HELLO",0
