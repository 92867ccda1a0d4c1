; Texts in ASCII, in PETSCII and with the high bit are ranges of their own.
; expect: code 34 of 34, constants as code 0 of 30, halves 0 right 0 wrong, rows 0 right 0 wrong, follows 6 of 6, wrong 0
; shows: RANGE { START @ascii; END @ascii+11; TYPE TextTable; }; # HELLO, WORLD
; shows: RANGE { START @petscii; END @petscii+4; TYPE ByteTable; }; # text in PETSCII: Commo
; shows: RANGE { START @high; END @high+8; TYPE ByteTable; }; # text with the high bit: READY. OK
        .code
        ldx     #$00
next:   lda     ascii,x
        beq     middle
        jsr     $FFD2
        inx
        bne     next
middle: lda     petscii,x
        beq     last
        jsr     $FFD2
        inx
        bne     middle
last:   lda     high,x
        jsr     $FFD2
        inx
        bne     last
        rts
        .rodata
ascii:  .byte   "HELLO, WORLD",0
petscii:
        .byte   $C3,"OMMO",$0D,0
high:   .byte   $D2,$C5,$C1,$C4,$D9,$AE,$A0,$CF,$CB,$8D
