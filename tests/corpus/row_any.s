; A row of three words goes on over words to code of any length, as a return alone, behind and before them.
; expect: code 21 of 21, constants as code 0 of 20, halves 0 right 0 wrong, rows 1 right 0 wrong, follows 14 of 14, wrong 0, runs 6 of 6
        .code
        lda     #$00
        jmp     exit
        .include "sim65.inc"
        .rodata
        .byte   $02
        .code
one:    lda     #$05
        sta     $80
        rts
        .rodata
        .byte   $02
        .code
none:   rts
        .rodata
        .byte   $02
        .code
two:    lda     $80
        asl     $80
        rts
        .rodata
        .byte   $02
        .code
three:  inc     $80
        ldx     $80
        rts
        .rodata
        .byte   $02
        .addr   none,one,two,three,none,two,none
        .byte   $02
