; The digits behind a SYS of BASIC are where code begins. They stay, and a comment says so.
; expect: code 7 of 7, constants as code 0 of 12, halves 0 right 0 wrong, rows 0 right 0 wrong, follows 0 of 2, wrong 0
; shows: # the digits at $0806-$0809 are 2061, $080D, where code begins: they stay if it moves
; start: $0801
; entry: begin
        .rodata
        .word   next,10
        .byte   $9E,"2061",0
next:   .word   0
        .code
begin:  lda     #$00
        sta     $80
        lda     $80
        rts
