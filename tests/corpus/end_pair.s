; The address of an end with which both halves of a pointer are compared is only likely one.
; expect: code 35 of 35, constants as code 0 of 5, halves 1 right 0 wrong, rows 0 right 0 wrong, follows 2 of 4, wrong 0, runs 0 of 4
; shows: # the bytes at @low+1 and @high+1 are @end: HALVES?
        .code
        lda     #<table
        sta     $80
        lda     #>table
        sta     $81
        ldy     #$00
next:   lda     ($80),y
        sta     $82
        inc     $80
        bne     same
        inc     $81
same:   lda     $80
low:    cmp     #<end
        lda     $81
high:   sbc     #>end
        bcc     next
        lda     $82
        jmp     exit
        .include "sim65.inc"
        .rodata
table:  .byte   1,2,3,4
end:    .byte   5
