; The line of BASIC with which a program begins calls its code: that is an entry, and its calls are no words.
; expect: code 25 of 25, constants as code 0 of 12, halves 0 right 0 wrong, rows 0 right 0 wrong, follows 6 of 8, wrong 0
; shows: #: ENTRY { ADDR @begin; };
; start: $0801
        .rodata
        .word   next,10
        .byte   $9E,"2061",0
next:   .word   0
        .code
begin:  jsr     one
        jsr     two
        jsr     three
        rts
one:    lda     #$01
        sta     $80
        rts
two:    lda     #$02
        sta     $81
        rts
three:  lda     #$03
        sta     $82
        rts
