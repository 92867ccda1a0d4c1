; The halves of an address that A and X are compared with, and those that are taken away or from, are only likely an address.
; expect: code 43 of 43, constants as code 0 of 3, halves 0 right 0 wrong, rows 0 right 0 wrong, follows 2 of 8, wrong 0, runs 4 of 4
; shows: # the bytes at @low+1 and @high+1 are @table: HALVES?
; shows: # the bytes at @less+1 and @more+1 are @table: HALVES?
; shows: # the bytes at @from+1 and @to+1 are @table: HALVES?
        .code
        lda     $80
        ldx     $81
high:   cpx     #>table
        bne     other
low:    cmp     #<table
        beq     same
other:  lda     $80
        sec
less:   sbc     #<table
        sta     $82
        lda     $81
more:   sbc     #>table
        sta     $83
from:   lda     #<table
        sec
        sbc     $80
        pha
to:     lda     #>table
        sbc     $81
        tax
        pla
same:   lda     table
        jmp     exit
        .include "sim65.inc"
        .rodata
table:  .byte   1,2,3
