# Where harts begin and end. Hart 0 begins at _start, with its stack pointer set; any other in hart_entry or thread_entry.
#
# With PREDATOR_THREADS each hart has the variables that are thread_local at the end of its stack, and tp shows there. With
# PREDATOR_C_LIBRARY what main needs of it is done before, and its end behind main.

    .macro  set_gp
    .option push
    .option norelax
    lla     gp, __global_pointer$
    .option pop
    .endm

    # Makes the hart's own variables, with a0 and a1 kept.
    .macro  set_tp
#ifdef PREDATOR_THREADS
    lui     t2, %hi(__own_size)
    addi    t2, t2, %lo(__own_size)
    sub     tp, sp, t2
    andi    tp, tp, -256            # (as aligned as any of them may be)
    mv      sp, tp
    jal     t0, make_own            # (by t0, which the call list takes for a call as well)
#ifdef PREDATOR_EXTRAS
    jal     t0, thread_locals
#endif
#endif
    .endm

    .section .text.start, "ax"

    .globl  _start
    .type   _start, @function
_start:
    set_gp
    set_tp
#ifdef PREDATOR_C_LIBRARY
    call    predator_start          # runs main, and ends the run
#else
    call    main
    li      a7, 94                  # exit_group(main's result): the run ends
    ecall
#endif
    .size   _start, . - _start

#ifdef PREDATOR_THREADS
    .text

# Copies what is filled at first, word by word, and clears the rest.
    .type   make_own, @function
make_own:
    lla     t3, __own_image
    lui     t4, %hi(__own_filled)
    addi    t4, t4, %lo(__own_filled)
    add     t4, t4, tp
    add     t2, t2, tp
    mv      t5, tp
1:
    bgeu    t5, t4, 2f
    lw      t6, 0(t3)
    sw      t6, 0(t5)
    addi    t3, t3, 4
    addi    t5, t5, 4
    j       1b
2:
    bgeu    t5, t2, 3f
    sw      zero, 0(t5)
    addi    t5, t5, 4
    j       2b
3:
    jr      t0
    .size   make_own, . - make_own

#ifdef PREDATOR_EXTRAS
# Notes them as a block, whose first call site is in here, so that a report names it by this function.
    .type   thread_locals, @function
thread_locals:
    mv      t3, a0
    mv      t4, a1
    mv      t6, t0
    jal     t0, 1f
    mv      t0, t6
    jr      t0
1:
    mv      a0, tp
    sub     a1, t2, tp              # (what make_own left)
    li      a7, 1031                # block
    ecall
    mv      a0, t3
    mv      a1, t4
    jr      t0
    .size   thread_locals, . - thread_locals
#endif
#endif

    .text

# int predator_spawn(int (*run)(void *), void *argument)
#
# A new hart is given one argument, and the gp of the hart that makes it. So its function comes to it in gp.
    .globl  predator_spawn
    .type   predator_spawn, @function
predator_spawn:
    mv      t0, gp
    mv      gp, a0
    lla     a0, hart_entry
    li      a7, 1026
    ecall
    mv      gp, t0
    ret
    .size   predator_spawn, . - predator_spawn

    .type   hart_entry, @function
hart_entry:
    mv      t1, gp                  # (t0 is a link register, and a jump through it would count as a return)
    set_gp
    set_tp
    jalr    t1                      # a0 is the argument
    li      a7, 93                  # exit(the function's result): the hart ends
    ecall
    .size   hart_entry, . - hart_entry

#ifdef PREDATOR_THREADS
    .section .text.predator_spawn_thread, "ax"

# int predator_spawn_thread(void *(*run)(void *), void *argument), of pthread/pthread_create.c
    .globl  predator_spawn_thread
    .type   predator_spawn_thread, @function
predator_spawn_thread:
    mv      t0, gp
    mv      gp, a0
    lla     a0, thread_entry
    li      a7, 1026
    ecall
    mv      gp, t0
    ret
    .size   predator_spawn_thread, . - predator_spawn_thread

    .type   thread_entry, @function
thread_entry:
    mv      a1, gp
    set_gp
    set_tp
    call    predator_thread         # with the argument and the function; it doesn't come back
    .size   thread_entry, . - thread_entry
#endif
