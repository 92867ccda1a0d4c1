; Runs in sim65: reads a state from standard input, sets memory and registers, runs the instruction, and writes a
; result. Two jumps tell where code goes on. test_run65.py says what a state and a result are; KIND is the CPU in
; sim65's numbers, STATE, POKES and PEEKS are how many bytes a state, its pokes and its peeks have.
        .setcpu "6502"
        .segment "HEAD"
        .byte   "sim65", 2, KIND, $F0
        .word   start, start
        .segment "CODE"
start:  ldx     #$FF
        txs
        lda     #<from
        ldx     #>from
        jsr     arguments
        lda     #STATE
        ldx     #0
        jsr     $FFF6                           ; read
        cmp     #STATE
        beq     poke
        lda     #0
        jmp     $FFF9                           ; exit
poke:   ldx     #0
next:   lda     state+7,x
        sta     put+1
        lda     state+8,x
        sta     put+2
        lda     state+9,x
put:    sta     $FFFF
        inx
        inx
        inx
        cpx     #POKES
        bne     next
        lda     state+5
        sta     go+1
        lda     state+6
        sta     go+2
        ldx     state+4
        dex
        txs                                     ; the flags are pulled from memory: a state has them there
        lda     state+1
        ldx     state+2
        ldy     state+3
        plp
go:     jmp     $FFFF
here:   sta     result
        php
        lda     #0
        jmp     back
there:  sta     result
        php
        lda     #1
back:   cld
        sta     result+5
        stx     result+1
        sty     result+2
        pla
        sta     result+4
        tsx
        stx     result+3
        ldx     #$FF
        txs
        ldx     #0
        ldy     #0
peek:   lda     state+7+POKES,x
        sta     get+1
        lda     state+8+POKES,x
        sta     get+2
get:    lda     $FFFF
        sta     result+6,y
        inx
        inx
        iny
        cpy     #PEEKS
        bne     peek
        lda     #<to
        ldx     #>to
        jsr     arguments
        lda     #12
        ldx     #0
        jsr     $FFF7                           ; write
        jmp     start
arguments:
        sta     $F0
        stx     $F1
        rts
from:   .word   state, 0
to:     .word   result, 1
state:  .res    STATE
result: .res    12
