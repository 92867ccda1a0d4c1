; Half of an address in an instruction that the byte $2C hides: the listing has no number there to name.
; expect: code 65 of 65, constants as code 0 of 8, halves 0 right 0 wrong, rows 0 right 0 wrong, follows 6 of 9, wrong 0, runs 0 of 7
        .code
        ldx     #$FF
        txs
        jsr     one
        jsr     two
        jmp     exit
one:    lda     #<first
        .byte   $2C
two:    lda     #<second
        ldx     #>second
        sta     $80
        stx     $81
        ldy     #$00
next:   lda     ($80),y
        beq     done
        jsr     putchar
        iny
        bne     next
done:   rts
        .include "sim65.inc"
        .rodata
first:  .byte   "ONE",0
second: .byte   "TWO",0
