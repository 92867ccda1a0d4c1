; A table of addresses right after the end of a routine, and right before code, is taken for code: all of it decodes.
; expect: code 32 of 37, constants as code 5 of 6, halves 0 right 0 wrong, rows 0 right 0 wrong, follows 6 of 10, wrong 0, runs 0 of 5
; should be: code 37 of 37, constants as code 0 of 6, rows 1 right 0 wrong, follows 10 of 10
        .code
        ldx     #$02
next:   lda     table,x
        sta     $80
        lda     table+1,x
        sta     $81
        jsr     call
        dex
        dex
        bpl     next
        lda     $82
        jmp     exit
call:   jmp     ($0080)
        .include "sim65.inc"
        .rodata
table:  .addr   two,one
        .byte   $02
        .code
one:    lda     #$05
        sta     $82
        rts
        .rodata
        .byte   $02
        .code
two:    asl     $82
        inc     $82
        rts
