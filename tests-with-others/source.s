; The same as source.asm, in the spelling of GNU as for the m68hc12.
        .equ BASE, 0x1000
        .equ NEXT, BASE+4
        .equ LAST, NEXT+NEXT-BASE-2
        .org 0x1000
START:  ldx #TABLE+1
        ldaa NEXT-1
        staa LAST+AFTER-START
LOOP:   dex
        bne LOOP
        bra DONE
TABLE:  .byte 1, LAST-BASE, 0xff, 255-1, SIZE
        .word TABLE, DONE-START, 65535, LOOP+1
DONE:   beq START
        jsr AFTER+2
        movb #SIZE, LAST
AFTER:  rts
        .equ SIZE, DONE-TABLE
        .org AFTER+SIZE+SIZE
FAR:    .word FAR, FAR-AFTER
