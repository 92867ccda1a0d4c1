; A number right after a table, which happens to be the address of a routine, is taken for a word of it: nothing tells it apart.
; expect: code 40 of 40, constants as code 0 of 7, halves 0 right 0 wrong, rows 1 right 0 wrong, follows 12 of 12, wrong 0, runs 6 of 6
        .code
        ldx     #$02
next:   lda     table,x
        sta     $80
        lda     table+1,x
        sta     $81
        jsr     call
        dex
        dex
        bpl     next
        lda     $82
        adc     number
        jmp     exit
call:   jmp     ($0080)
one:    inc     $82
        inc     $82
        rts
two:    lda     #$05
        sta     $82
        rts
        .include "sim65.inc"
        .rodata
        .byte   $02
table:  .addr   one,two
number: .word   $101B
