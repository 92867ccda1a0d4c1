; The first word of data that code has in halves is the address of other data, but no code uses that with an index: it may be a number.
; expect: code 14 of 14, constants as code 0 of 7, halves 1 right 0 wrong, rows 0 right 0 wrong, follows 4 of 4, wrong 0, runs 2 of 2
; shows: # the word at @block is @other, the first of the data that $1000 loads: AddrTable?
        .code
        lda     #<block
        ldx     #>block
        sta     $80
        stx     $81
        lda     other
        jmp     exit
        .include "sim65.inc"
        .rodata
block:  .word   $1011
        .byte   4
other:  .byte   1,2,3,4
