; Code that is copied and run elsewhere: a comment says how it is listed there. Its halves are an address of the image.
; expect: code 32 of 32, constants as code 0 of 0, halves 1 right 0 wrong, rows 0 right 0 wrong, follows 4 of 4, wrong 0, runs 4 of 4
; shows: # code from @code is copied to $0300 and run there: list it with INPUTOFFS 19; STARTADDR $0300;
; entry: code
        .code
        ldx     #codeend-code-1
next:   lda     code,x
        sta     $0300,x
        dex
        bpl     next
        jsr     $0300
        lda     $80
        jmp     exit
        .code
code:   lda     #<code
        ldx     #>code
        sta     $81
        stx     $82
        lda     #$05
        sta     $80
        rts
codeend:
        .include "sim65.inc"
