; A small monitor for a 6502 board: RAM at $0000, a 6551 serial chip at $8800, a ROM of 1 KiB at $FC00.
;
; docs/GUIDE.md repairs the image as if this source were lost. It is here so that the image can be made again, at the top of the checkout:
;
;     ca65 -o monitor.o examples/board/monitor.s
;     ld65 -C examples/board/monitor.cfg -o examples/board/monitor.bin monitor.o
;
; Commands: D from to (dump), S address byte.. (set), G address (go), F from to byte (fill), T from to target
; (copy), R (registers), H (help). Numbers are hexadecimal. The dump shows seven bytes a line, one too few.

        .setcpu "6502"

ACIA_DATA       := $8800
ACIA_STATUS     := $8801
ACIA_COMMAND    := $8802
ACIA_CONTROL    := $8803

FROM            := $F0          ; first address of a command
TO              := $F2          ; last address
TARGET          := $F4          ; where to copy, and the address of a text
VALUE           := $F6          ; the number that was read
DIGITS          := $F8          ; how many digits it had
COLUMN          := $F9          ; bytes left on a line of a dump

SAVE_A          := $0200        ; the registers of the program that was interrupted
SAVE_X          := $0201
SAVE_Y          := $0202
SAVE_P          := $0203
SAVE_S          := $0204
SAVE_PC         := $0205
LINE            := $0210        ; the line that was typed, 64 bytes
OUTPUT          := $0250        ; where programs send their characters

        .code

; ---- after a reset

reset:  cld
        ldx     #$FF
        txs
        lda     #$1F            ; 19,200 baud, eight bits, one stop bit
        sta     ACIA_CONTROL
        lda     #$0B            ; no parity, no interrupts
        sta     ACIA_COMMAND
        ldx     #hello - texts
        jsr     say
        jmp     ready

; ---- after brk or an interrupt: keep the registers and say where it happened

break:  sta     SAVE_A
        stx     SAVE_X
        sty     SAVE_Y
        pla
        sta     SAVE_P
        pla
        sta     SAVE_PC
        pla
        sta     SAVE_PC + 1
        tsx
        stx     SAVE_S
        cld
        ldx     #stopped - texts
        jsr     say
        jsr     registers

; ---- the loop: read a line, find its command

ready:  lda     #'>'
        jsr     put
        jsr     getline
        ldy     #0
        jsr     skip
        beq     ready
        iny
        ldx     #letters_end - letters - 1
find:   cmp     letters,x
        beq     found
        dex
        bpl     find
error:  ldx     #what - texts
        jsr     say
        jmp     ready

found:  txa
        asl     a
        tax
        jsr     command
        bcs     error
        jmp     ready

; calls the command of the table: its address, less 1, goes on the stack
command:
        lda     commands + 1,x
        pha
        lda     commands,x
        pha
        rts

; ---- D from to

dump:   jsr     two_numbers
        bcs     failed
dump_line:
        jsr     newline
        lda     FROM + 1
        jsr     byte
        lda     FROM
        jsr     byte
        lda     #7
        sta     COLUMN
        ldy     #0
dump_byte:
        lda     #' '
        jsr     put
        lda     (FROM),y
        jsr     byte
        jsr     next
        bcs     dumped
        dec     COLUMN
        bne     dump_byte
        beq     dump_line
dumped: jsr     newline
        clc
failed: rts

; ---- S address byte ..

set:    jsr     number
        bcs     failed
        lda     VALUE
        sta     FROM
        lda     VALUE + 1
        sta     FROM + 1
set_byte:
        jsr     number
        bcs     set_done
        sty     COLUMN
        ldy     #0
        lda     VALUE
        sta     (FROM),y
        ldy     COLUMN
        inc     FROM
        bne     set_byte
        inc     FROM + 1
        bne     set_byte
set_done:
        clc
        rts

; ---- G address

go:     jsr     number
        bcs     failed
        jmp     (VALUE)

; ---- F from to byte

fill:   jsr     two_numbers
        bcs     failed
        jsr     number
        bcs     failed
        ldy     #0
fill_byte:
        lda     VALUE
        sta     (FROM),y
        jsr     next
        bcc     fill_byte
        clc
        rts

; ---- T from to target

copy:   jsr     two_numbers
        bcs     failed
        jsr     number
        bcs     failed
        lda     VALUE
        sta     TARGET
        lda     VALUE + 1
        sta     TARGET + 1
        ldy     #0
copy_byte:
        lda     (FROM),y
        sta     (TARGET),y
        inc     TARGET
        bne     copy_next
        inc     TARGET + 1
copy_next:
        jsr     next
        bcc     copy_byte
        clc
        rts

; ---- R

registers:
        ldx     #0
register:
        lda     register_names,x
        jsr     put
        lda     #'='
        jsr     put
        lda     SAVE_A,x
        jsr     byte
        lda     #' '
        jsr     put
        inx
        cpx     #5
        bne     register
        lda     #'P'
        jsr     put
        lda     #'C'
        jsr     put
        lda     #'='
        jsr     put
        lda     SAVE_PC + 1
        jsr     byte
        lda     SAVE_PC
        jsr     byte
        jsr     newline
        clc
        rts

; ---- H

help:   ldx     #usage - texts
        jsr     say
        clc
        rts

; ---- numbers

; two numbers from the line: FROM and TO
two_numbers:
        jsr     number
        bcs     no_number
        lda     VALUE
        sta     FROM
        lda     VALUE + 1
        sta     FROM + 1
        jsr     number
        bcs     no_number
        lda     VALUE
        sta     TO
        lda     VALUE + 1
        sta     TO + 1
        clc
        rts

; a number from the line: VALUE; carry if there is none
number: jsr     skip
        lda     #0
        sta     VALUE
        sta     VALUE + 1
        sta     DIGITS
digit:  lda     LINE,y
        sec
        sbc     #'0'
        cmp     #10
        bcc     is_digit
        sbc     #'A' - '0'
        cmp     #6
        bcs     number_end
        adc     #10
is_digit:
        ldx     #4
shift:  asl     VALUE
        rol     VALUE + 1
        dex
        bne     shift
        ora     VALUE
        sta     VALUE
        inc     DIGITS
        iny
        bne     digit
number_end:
        lda     DIGITS
        beq     no_number
        clc
        rts
no_number:
        sec
        rts

; the next address of FROM to TO; carry if it was the last
next:   lda     FROM
        cmp     TO
        lda     FROM + 1
        sbc     TO + 1
        bcs     last
        inc     FROM
        bne     more
        inc     FROM + 1
more:   clc
last:   rts

; ---- the line

; the next byte of the line that is no blank; zero at the end
skip:   lda     LINE,y
        cmp     #' '
        bne     skipped
        iny
        bne     skip
skipped:
        cmp     #0
        rts

; reads a line, with backspace
getline:
        ldx     #0
getkey: jsr     get
        cmp     #$0D
        beq     line_end
        cmp     #$08
        beq     back
        cpx     #63
        bcs     getkey
        sta     LINE,x
        inx
        jsr     put
        jmp     getkey
back:   cpx     #0
        beq     getkey
        dex
        jsr     put
        jmp     getkey
line_end:
        lda     #0
        sta     LINE,x
        jmp     newline

; ---- bytes and characters

; a byte in two hexadecimal digits
byte:   pha
        lsr     a
        lsr     a
        lsr     a
        lsr     a
        jsr     nibble
        pla
        and     #$0F
nibble: stx     DIGITS
        tax
        lda     hex,x
        ldx     DIGITS
        jmp     put

; the text at X in texts, up to a zero byte
say:    lda     texts,x
        beq     said
        jsr     put
        inx
        bne     say
said:   rts

newline:
        lda     #$0D
        jsr     put
        lda     #$0A

; a character to the serial chip
put:    pha
wait:   lda     ACIA_STATUS
        and     #$10
        beq     wait
        pla
        sta     ACIA_DATA
        rts

; a character from the serial chip, in capitals
get:    lda     ACIA_STATUS
        and     #$08
        beq     get
        lda     ACIA_DATA
        and     #$7F
        cmp     #'a'
        bcc     got
        cmp     #'z' + 1
        bcs     got
        and     #$DF
got:    rts

; for programs: a bell, and a blank. After the bell the byte of `bit` hides the next instruction
bell:   lda     #$07
        .byte   $2C
blank:  lda     #' '
        jmp     put

; ---- tables

letters:
        .byte   "DSGFTRH"
letters_end:

commands:
        .word   dump - 1, set - 1, go - 1, fill - 1, copy - 1, registers - 1, help - 1

hex:    .byte   "0123456789ABCDEF"

register_names:
        .byte   "AXYPS"

texts:
hello:  .byte   $0D, $0A, "BOARD MONITOR 1.2", $0D, $0A, 0
stopped:
        .byte   $0D, $0A, "BREAK ", 0
what:   .byte   "?", $0D, $0A, 0
usage:  .byte   "D S G F T R H", $0D, $0A, 0

; ---- for programs

; lets OUTPUT lead to `put`: an address that is loaded in halves
unhook: lda     #<put
        sta     OUTPUT
        lda     #>put
        sta     OUTPUT + 1
        rts

; prints text X of two tables, one of low bytes and one of high bytes
message:
        lda     low,x
        sta     TARGET
        lda     high,x
        sta     TARGET + 1
        ldy     #0
message_byte:
        lda     (TARGET),y
        beq     message_end
        jsr     put
        iny
        bne     message_byte
message_end:
        rts

low:    .lobytes hello, what, usage
high:   .hibytes hello, what, usage

; prints the text at A and Y, the low byte and the high one
print:  sta     TARGET
        sty     TARGET + 1
        ldy     #0
        beq     message_byte

; prints the commands: an address that is loaded into two registers
tell:   lda     #<usage
        ldy     #>usage
        jmp     print

; ---- entries at fixed places, for programs, and the vectors

        .segment "ENTRIES"
        jmp     tell
        jmp     unhook
        jmp     message
        jmp     put
        jmp     get
        jmp     say
        jmp     bell
        jmp     blank
        jmp     ready

        .segment "VECTORS"
        .addr   break, reset, break
