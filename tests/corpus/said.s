; Half of the address of the end of a table, which the information file says.
; expect: code 29 of 29, constants as code 0 of 4, halves 1 right 0 wrong, rows 0 right 0 wrong, follows 3 of 3, wrong 0, runs 4 of 4
; info: #: HALVES { LOW @compare+1; ADDR @end; };
; info: LABEL { ADDR @end; NAME "end"; };
        .code
        lda     #<table
        sta     $80
        lda     #>table
        sta     $81
        ldy     #$00
        tya
next:   clc
        adc     ($80),y
        inc     $80
        bne     same
        inc     $81
same:   ldx     $80
compare:
        cpx     #<end
        bne     next
        jmp     exit
        .include "sim65.inc"
        .rodata
table:  .byte   1,2,4
end:    .byte   8
