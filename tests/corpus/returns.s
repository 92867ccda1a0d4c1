; A table of addresses less one leads to routines that nothing else leads to.
; expect: code 33 of 33, constants as code 0 of 7, halves 0 right 0 wrong, rows 1 right 0 wrong, follows 10 of 10, wrong 0, runs 6 of 6
        .code
        ldx     #$02
next:   jsr     call
        dex
        dex
        bpl     next
        lda     $82
        jmp     exit
call:   lda     table+1,x
        pha
        lda     table,x
        pha
        rts
        .include "sim65.inc"
        .rodata
        .byte   $02
table:  .addr   one-1,two-1
        .byte   $02
        .code
one:    asl     $82
        inc     $82
        rts
        .rodata
        .byte   $02
        .code
two:    lda     #$06
        sta     $82
        rts
