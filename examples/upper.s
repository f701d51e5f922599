# The input in capitals: each byte that is read is written, a small letter as its capital. The status is the number of
# letters that were turned; it is also the variable `letters`. Every cut is a call of the checkpoint, which keeps x1, x2
# and x5 up to the register that its entry names. The code stands from 0x1000 on; its words are those of upper.img.

INDEX    = 0x00                 # which register buffer is live
STATUS   = 0x04
OUT_LEN0 = 0x0c                 # two lengths of the output, and the byte that selects one
OUT_CAP  = 0x10
IN_LEN   = 0x14
IN_POS   = 0x18
OUT_LEN1 = 0x20
OUT_SEL  = 0x24
BUFFER0  = 0x80                 # word 0 of a buffer is the place to go on at, word i register xi
BUFFER1  = 0x100

# ---- recovery: power has come, and the registers are those of the live buffer

        .macro restore buffer
        lw      x3, \buffer(x0)
        .irp    i, 1,2,5,6,7,8,9,10,11,12,13,14,15,16,17,18,19,20,21,22,23,24,25,26,27,28,29,30,31
        lw      x\i, \buffer+4*\i(x0)
        .endr
        jalr    x0, 0(x3)
        .endm

recovery:
        lw      x4, INDEX(x0)
        bne     x4, x0, second
        restore BUFFER0
second: restore BUFFER1

# ---- the checkpoint: registers go into the idle buffer, and the store of INDEX makes it the live one

        .macro  entry i
E\i:    lw      x4, INDEX(x0)
        xori    x4, x4, 1
        slli    x4, x4, 7
        addi    x4, x4, 128
        jal     x0, L\i
        .endm
        .macro  rung i
L\i:    sw      x\i, 4*\i(x4)
        .endm

        .irp    i, 4,5,6,7,8,9,10,11,12,13,14,15,16,17,18,19,20,21,22,23,24,25,26,27,28,29,30,31
        entry   \i
        .endr
        .irp    i, 31,30,29,28,27,26,25,24,23,22,21,20,19,18,17,16,15,14,13,12,11,10,9,8,7,6,5
        rung    \i
        .endr
L4:     sw      x1, 4(x4)
        sw      x2, 8(x4)
        sw      x3, 0(x4)
        srli    x4, x4, 8
        sw      x4, INDEX(x0)
        jalr    x0, 0(x3)

# ---- the next byte of the input, or -1: IN_POS is read in one section and stored in the next

getchar:
        lw      x5, IN_POS(x0)
        lw      x6, IN_LEN(x0)
        bgeu    x5, x6, at_end
        lui     x6, 0x300
        add     x6, x6, x5
        lbu     x10, 0(x6)
        addi    x5, x5, 1
        jal     x3, E10
        sw      x5, IN_POS(x0)
        jalr    x0, 0(x1)
at_end: addi    x10, x0, -1
        jalr    x0, 0(x1)

# ---- a byte is appended: the byte, the length that isn't selected, and the selector, each in a section of its own

putchar:
        andi    x10, x10, 255
        lbu     x5, OUT_SEL(x0)
        bne     x5, x0, len1
        lw      x6, OUT_LEN0(x0)
        jal     x0, counted
len1:   lw      x6, OUT_LEN1(x0)
counted:
        lw      x7, OUT_CAP(x0)
        bgeu    x6, x7, full
        lui     x7, 0x400
        add     x7, x7, x6
        sb      x10, 0(x7)
        addi    x6, x6, 1
        jal     x3, E10
        bne     x5, x0, len0
        sw      x6, OUT_LEN1(x0)
        jal     x0, stored
len0:   sw      x6, OUT_LEN0(x0)
stored: jal     x3, E10
        sltiu   x5, x5, 1
        sb      x5, OUT_SEL(x0)
        jal     x3, E10
        jalr    x0, 0(x1)
full:   addi    x10, x0, -1
        jalr    x0, 0(x1)

# ---- the program

main:   addi    x2, x2, -4
        sw      x1, 0(x2)
next:   jal     x1, getchar
        blt     x10, x0, done
        addi    x6, x10, -97
        sltiu   x6, x6, 26
        beq     x6, x0, plain
        addi    x10, x10, -32
        lui     x5, 0x100               # letters stands at 0x100000
        lw      x6, 0(x5)
        addi    x6, x6, 1
        jal     x3, E10                 # letters was read above, and is written below
        sw      x6, 0(x5)
plain:  jal     x1, putchar
        jal     x0, next
done:   lui     x5, 0x100
        lw      x10, 0(x5)
        lw      x1, 0(x2)
        addi    x2, x2, 4
        jalr    x0, 0(x1)

start:  jal     x1, main
        sw      x10, STATUS(x0)
        ebreak
