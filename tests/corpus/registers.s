; Halves in two registers, one loaded right after the other, are an address, whichever comes first.
; expect: code 83 of 83, constants as code 0 of 16, halves 3 right 0 wrong, rows 0 right 0 wrong, follows 16 of 16, wrong 0, runs 9 of 9
        .code
        ldx     #$FF
        txs
        lda     #<one
        ldx     #>one
        jsr     print_ax
        ldy     #>two
        lda     #<two
        jsr     print_ay
        ldx     #<three
        ldy     #>three
        jsr     print_xy
        lda     #$00
        jmp     exit
print_ax:
        sta     $80
        stx     $81
        jmp     print
print_xy:
        txa
print_ay:
        sta     $80
        sty     $81
print:  ldy     #$00
next:   lda     ($80),y
        beq     done
        jsr     putchar
        iny
        bne     next
done:   rts
        .include "sim65.inc"
        .rodata
one:    .byte   "ONE ",0
two:    .byte   "TWO ",0
three:  .byte   "THREE",0
