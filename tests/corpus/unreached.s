; Bytes that read as code get a comment, if nothing leads there.
; expect: code 5 of 31, constants as code 0 of 2, halves 0 right 0 wrong, rows 0 right 0 wrong, follows 0 of 0, wrong 0, runs 2 of 2
; shows: # 26 bytes at @other read as code, but nothing leads there: ENTRY?
        .code
        lda     #$00
        jmp     exit
        .include "sim65.inc"
        .rodata
        .byte   $02
        .code
other:  lda     $80
        beq     more
        sta     $82
more:   ldx     #$00
again:  inx
        cpx     #$05
        bne     again
        stx     $83
        lda     $81
        bne     other
        sta     $84
        lda     $85
        sta     $86
        rts
        .rodata
        .byte   $02
