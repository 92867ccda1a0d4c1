; Halves lead to code with a table, whose words lead to code with other halves, and these to the rest.
; expect: code 55 of 55, constants as code 0 of 9, halves 2 right 0 wrong, rows 1 right 0 wrong, follows 14 of 14, wrong 0, runs 6 of 6
        .code
        lda     #<first
        sta     $80
        lda     #>first
        sta     $81
        jmp     ($0080)
        .rodata
        .byte   $02
table:  .addr   second,other
        .byte   $02
        .code
first:  ldx     #$00
        lda     table,x
        sta     $80
        lda     table+1,x
        sta     $81
        jmp     ($0080)
        .rodata
        .byte   $02
        .code
other:  ldx     #$01
        stx     $82
        jmp     second
        .rodata
        .byte   $02
        .code
second: lda     #<last
        ldy     #>last
        sta     $80
        sty     $81
        jmp     ($0080)
        .rodata
        .byte   $02
        .code
last:   lda     #$08
        sta     $82
        inc     $82
        lda     $82
        jmp     exit
        .include "sim65.inc"
