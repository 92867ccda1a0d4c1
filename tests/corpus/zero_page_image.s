; Variables right after an image in the zero page: by names their operands would have other sizes.
; expect: code 7 of 7, constants as code 0 of 0, halves 0 right 0 wrong, rows 0 right 0 wrong, follows 0 of 3, wrong 0
; start: $0080
        .code
        lda     a:count
        clc
        adc     <count
        rts
        .bss
count:  .res    1
