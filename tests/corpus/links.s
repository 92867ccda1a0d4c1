; Words that lead on, each to the next one, as the links of a list of commands: four of them are addresses.
; expect: code 27 of 27, constants as code 0 of 24, halves 1 right 0 wrong, rows 4 right 0 wrong, follows 10 of 10, wrong 0, runs 4 of 4
        .code
        lda     #<last
        sta     $80
        lda     #>last
        sta     $81
again:  ldy     #$00
        lda     ($80),y
        tax
        iny
        lda     ($80),y
        beq     done
        sta     $81
        stx     $80
        bne     again
done:   jmp     exit
        .include "sim65.inc"
        .rodata
one:    .word   0
        .byte   "BY"
two:    .addr   one
        .byte   "CLS"
three:  .addr   two
        .byte   "GO"
four:   .addr   three
        .byte   "RUN!"
last:   .addr   four
        .byte   "END"
