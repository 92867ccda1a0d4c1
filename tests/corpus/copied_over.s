; Code that is copied over the image and run there: its numbers are no address of what the image has there.
; expect: code 30 of 30, constants as code 0 of 14, halves 0 right 0 wrong, rows 0 right 0 wrong, follows 8 of 8, wrong 0, runs 5 of 5
; shows: # code from @code is copied to @start and run there: list it with INPUTOFFS 31; STARTADDR @start;
; entry: code
        .code
start:  jmp     copy
        .rodata
        .res    14,$02
        .code
copy:   ldx     #codeend-code-1
next:   lda     code,x
        sta     start,x
        dex
        bpl     next
        jmp     start
code:   lda     #$0E
        ldx     #$10
        sta     $81
        stx     $82
        lda     #$05
        jmp     exit
codeend:
        .include "sim65.inc"
