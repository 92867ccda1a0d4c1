; A table whose index begins at 8, so that the operand lies in code: a comment says so, and the table gets a label for a group BASE.
; expect: code 10 of 10, constants as code 0 of 2, halves 0 right 0 wrong, rows 0 right 0 wrong, follows 2 of 2, wrong 0, runs 3 of 3
; shows: # the operand $1002 at @read lies in code: BASE { ADDR @read; FROM @table; }?
; shows: LABEL { ADDR @table; NAME "L100A"; };
        .code
        ldx     #$09
        clc
read:   lda     table-8,x
        asl     a
        jmp     exit
        .rodata
table:  .byte   $03,$04
        .code
        .include "sim65.inc"
