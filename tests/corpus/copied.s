; Code that is copied to another place and runs there: a word has its length, which the information file says.
; expect: code 31 of 31, constants as code 0 of 2, halves 0 right 0 wrong, rows 0 right 0 wrong, follows 4 of 4, wrong 0, runs 5 of 5
; info: #: DIFFERENCE { ADDR @length; FROM @begin; TO @end; };
; info: RANGE { START @length; END @length+1; TYPE WordTable; };
; info: LABEL { ADDR @begin; NAME "begin"; };
; info: LABEL { ADDR @end; NAME "end"; };
        .code
        ldx     #$00
next:   lda     begin,x
        sta     $0300,x
        inx
        cpx     length
        bne     next
        jsr     $0300
        jmp     exit
begin:  ldx     #$03
        lda     #$00
loop:   clc
        adc     #$02
        dex
        bne     loop
        rts
end:    .include "sim65.inc"
        .rodata
length: .word   end-begin
