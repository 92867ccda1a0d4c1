; Behind a call of ProDOS stand the number of a command and the address of its parameters.
; expect: code 12 of 12, constants as code 0 of 9, halves 0 right 0 wrong, rows 1 right 0 wrong, follows 4 of 4, wrong 0
; shows: #: INLINE { ADDR $BF00; SIZE 3; };
        .code
        jsr     $BF00
        .rodata
        .byte   $C8
        .addr   open
        .code
        bcs     error
        lda     open+5
        rts
error:  lda     #$FF
        rts
        .rodata
open:   .byte   3,$02,$02,$02,$02,$02
