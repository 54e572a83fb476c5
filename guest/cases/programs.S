# The small programs of the cases in crates/worked_runs/data, which build.py assembles there: each from its heading `#= NAME`
# on. Each stands at 0x10000, in one segment that may be read, written and run. Under its heading `#+ rights N` gives that segment
# other rights, `#+ zeros ADDR SIZE` adds a segment of zeros that may be read and written, and `#+ function NAME ADDR SIZE` a symbol.

#= plain: exits with 7; three instructions
    li      a7, 93
    li      a0, 7
    ecall

#= loops: a jump to itself
    j       .

#= traps: a load of a word at an odd address
    lw      t0, 1(zero)

#= waits_for_ever: waits at its own first word, and nobody wakes it
    li      a7, 1028
    lui     a0, 0x10
    lw      a1, 0(a0)
    ecall

#= shares: hart 0 spawns hart 1, and each makes one AMOADD at 0x10400 and one SC that fails, and exits
    li      a7, 1026
    lui     a0, 0x10
    addi    a0, a0, 16
    ecall
    lui     t0, 0x10
    addi    t0, t0, 1024
    li      t1, 1
    amoadd.w zero, t1, (t0)
    sc.w    t2, t1, (t0)
    li      a7, 93
    li      a0, 0
    ecall

#= writes: writes the first 4 bytes of its code to file 1, and exits with how many were written
    li      a7, 64
    li      a0, 1
    lui     a1, 0x10
    li      a2, 4
    ecall
    li      a7, 93
    ecall

#= calls_nothing: a call that isn't there, and exits with its answer
    li      a7, 2000
    ecall
    li      a7, 93
    ecall

#= counts_steps: asks how many steps were made, and exits with both words of the answer added
    li      a1, 5
    li      a7, 1033
    ecall
    add     a0, a0, a1
    li      a7, 93
    ecall

#= jumps_away: a jump to nowhere
    lui     t0, 0x80000
    jr      t0

#= no_instruction: a word that is none
    .word   0

#= writes_too_much: 4294967295 bytes from 0x10000 on; 4096 are put out
    li      a7, 64
    li      a0, 1
    lui     a1, 0x10
    li      a2, -1
    ecall
    li      a7, 93
    ecall

#= writes_from_nowhere: a byte that isn't in memory
    li      a7, 64
    li      a0, 2
    li      a1, 0
    li      a2, 1
    ecall
    li      a7, 93
    ecall

#= writes_elsewhere: a byte to file 3
    li      a7, 64
    li      a0, 3
    lui     a1, 0x10
    li      a2, 1
    ecall
    li      a7, 93
    ecall

#= writes_nothing: no bytes, from nowhere
    li      a7, 64
    li      a0, 1
    li      a1, 0
    li      a2, 0
    ecall
    li      a7, 93
    ecall

#= joins_itself: hart 0 joins hart 0
    li      a7, 1027
    li      a0, 0
    ecall
    li      a7, 93
    ecall

#= waits_at_odd: waits at the address 2
    li      a7, 1028
    li      a0, 2
    ecall
    li      a7, 93
    ecall

#= waits_nowhere: waits at the address 0
    li      a7, 1028
    li      a0, 0
    ecall
    li      a7, 93
    ecall

#= runs_data: spawns a hart at 0x80000, which can't be run
    li      a7, 1026
    lui     a0, 0x80
    ecall
    li      a7, 93
    ecall

#= ends_all: exit_group with 9
    li      a7, 94
    li      a0, 9
    ecall

#= allocates: makes blocks of 24 bytes and of none, writes to the first, and exits with the second's address
    li      a7, 1024
    li      a0, 24
    ecall
    mv      t0, a0
    li      a0, 0
    ecall
    sw      zero, 0(t0)
    li      a7, 93
    ecall

#= frees: makes a block in a function that it calls, writes to it, frees it twice, and exits with the second answer
    jal     ra, 1f
    sw      zero, 4(a0)
    mv      s0, a0
    li      a7, 1025
    ecall
    mv      a0, s0
    ecall
    li      a7, 93
    ecall
1:  li      a7, 1024
    li      a0, 8
    ecall
    ret

#= adds_bytes: each of three harts adds 3 to a byte of its own: at 0x11000, 0x11004 and 0x11005
#+ rights 5
#+ zeros 0x11000 4096
#+ function work 0x10030 44
    lui     t0, 0x11
    sw      t0, 8(t0)
    li      a7, 1026
    lui     a0, 0x10
    addi    a0, a0, 0x30
    li      a1, 4
    ecall
    lui     a0, 0x10
    addi    a0, a0, 0x30
    li      a1, 5
    ecall
    li      a0, 0
work:
    lui     t0, 0x11
    add     t0, t0, a0
    li      t1, 3
loop:
    lbu     t2, 0(t0)
    addi    t2, t2, 1
    sb      t2, 0(t0)
    addi    t1, t1, -1
    bnez    t1, loop
    li      a7, 93
    li      a0, 0
    ecall

#= notes_blocks: notes a block twice at one place, in a function, writes to it, lets it die twice, and exits with both answers and 22
    jal     ra, 1f
    jal     ra, 1f
    lui     t0, 0x10
    sw      zero, 256(t0)
    li      a7, 1032
    lui     a0, 0x10
    addi    a0, a0, 256
    ecall
    mv      s0, a0
    lui     a0, 0x10
    addi    a0, a0, 256
    ecall
    add     a0, a0, s0
    addi    a0, a0, 22
    li      a7, 93
    ecall
1:  li      a7, 1031
    lui     a0, 0x10
    addi    a0, a0, 256
    li      a1, 16
    ecall
    ret

#= notes_nothing: notes a block of no bytes, frees what it noted, and exits with the sum of the answers
    li      a7, 1031
    lui     a0, 0x10
    li      a1, 0
    ecall
    mv      s0, a0
    lui     a0, 0x10
    li      a1, 4
    ecall
    add     s0, s0, a0
    li      a7, 1025
    lui     a0, 0x10
    ecall
    add     a0, a0, s0
    li      a7, 93
    ecall
