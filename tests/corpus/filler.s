; A text, the byte that ends it, and sixteen equal bytes are ranges of their own.
; expect: code 52 of 52, constants as code 0 of 29, halves 0 right 0 wrong, rows 0 right 0 wrong, follows 6 of 6, wrong 0, runs 5 of 5
; shows: RANGE { START @text; END @text+11; TYPE TextTable; }; # HELLO, WORLD
; shows: RANGE { START @text+12; END @text+12; TYPE ByteTable; }; # .
; shows: RANGE { START @filler; END @filler+15; TYPE ByteTable; }; # ................
        .code
        ldx     #$FF
        txs
        inx
        ldy     #$00
next:   lda     text,y
        beq     done
        jsr     putchar
        iny
        bne     next
done:   lda     filler
        jmp     exit
        .include "sim65.inc"
        .rodata
text:   .byte   "HELLO, WORLD",0
filler: .res    16,$FF
