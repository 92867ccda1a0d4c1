; Texts after calls of which nothing is said are read as code. A comment says what may stand there.
; expect: code 84 of 84, constants as code 11 of 11, halves 0 right 0 wrong, rows 0 right 0 wrong, follows 8 of 8, wrong 0, runs 7 of 7
; shows: # what follows 1 of 2 calls of @print does not decode: INLINE?
        .code
        ldx     #$FF
        txs
        jsr     print
        .rodata
        .byte   "HI ",0
        .code
        jsr     print
        .rodata
again:  .byte   "AGAIN",$0A,0
        .code
        lda     #$03
        jmp     exit
print:  tsx
        lda     $0101,x
        sta     $80
        lda     $0102,x
        sta     $81
next:   inc     $80
        bne     same
        inc     $81
same:   ldy     #$00
        lda     ($80),y
        beq     done
        jsr     putchar
        jmp     next
done:   tsx
        lda     $80
        sta     $0101,x
        lda     $81
        sta     $0102,x
        rts
        .include "sim65.inc"
