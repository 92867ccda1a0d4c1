; One word of data is the address of a routine: that is only likely, and a comment says so.
; expect: code 20 of 20, constants as code 0 of 4, halves 0 right 0 wrong, rows 0 right 0 wrong, follows 8 of 10, wrong 0, runs 3 of 4
; should be: follows 10 of 10
; shows: # the word at @word is @routine: AddrTable?
        .code
        jsr     routine
        jmp     (word)
        .rodata
word:   .addr   routine
        .byte   $02
        .code
routine:
        inc     count
        lda     count
        cmp     #$02
        beq     done
        rts
done:   jmp     exit
        .include "sim65.inc"
        .rodata
count:  .byte   0
