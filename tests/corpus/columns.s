; Records with addresses of texts: words beside them that are all addresses of records, or of routines, or zero, are addresses too.
; expect: code 37 of 37, constants as code 0 of 42, halves 0 right 0 wrong, rows 4 right 0 wrong, follows 26 of 26, wrong 0, runs 5 of 5
        .code
        ldx     #$07
        ldy     records,x
        lda     records+1,x
        sty     $80
        sta     $81
        ldy     #$00
        lda     ($80),y
        jsr     first
        jsr     second
        jsr     third
        jmp     exit
first:  sta     $82
        rts
second: inc     $82
        rts
third:  lda     $82
        rts
        .include "sim65.inc"
        .rodata
records: .addr  hall,there
        .byte   0
        .addr   first
there:  .addr   cave,last
        .byte   0
        .addr   second
last:   .addr   lake,0
        .byte   0
        .addr   third
hall:   .byte   "A HALL",0
cave:   .byte   "A CAVE",0
lake:   .byte   "A LAKE",0
