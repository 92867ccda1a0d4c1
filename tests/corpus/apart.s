; Halves with another instruction between them are not found.
; expect: code 56 of 56, constants as code 0 of 6, halves 0 right 0 wrong, rows 0 right 0 wrong, follows 2 of 4, wrong 0, runs 0 of 5
; should be: follows 4 of 4
        .code
        ldx     #$FF
        txs
        lda     #<text
        clc
        sta     $80
        ldx     #>text
        stx     $81
        ldy     #$00
next:   lda     ($80),y
        beq     done
        jsr     putchar
        iny
        bne     next
done:   jmp     exit
        .include "sim65.inc"
        .rodata
text:   .byte   "HELLO",0
