; A byte after each call of the system, whose routine lies outside the image, as the information file says.
; expect: code 13 of 13, constants as code 0 of 2, halves 0 right 0 wrong, rows 0 right 0 wrong, follows 0 of 0, wrong 0
; info: #: INLINE { ADDR $BF00; SIZE 1; };
        .code
        jsr     $BF00
        .rodata
        .byte   $CC
        .code
        bcs     failed
        jsr     $BF00
        .rodata
        .byte   $65
        .code
failed: lda     #$87
        jmp     $FDED
