"""The package of `predator allocators`: from an allocator to a table of what its placement of blocks costs.

main.py runs a call through the modules in this order:

    calls.py       reads the words of a call
    libraries.py   finds allocators by words, and refuses what is none
    driver_builds.py
                   the drivers, the programs that ask for blocks, and how they are built
    recording.py   runs a driver with an allocator under the recorder of `predator native`, within limits
    guest_builds.py, guests.py
                   build drivers with an author's malloc.c, and have `predator campaign` run them
    lives.py       the blocks of a trace, the threads that they were given to, and the lines that these share
    findings.py    what the engine counts of a trace, split into blocks, the allocator's own data and the rest
    results.py     what was measured before, in a folder, so that a call resumes
    tables.py      the table and the JSON; page.py the page

Misses and invalidations are the engine's. The lines of blocks are counted here, and tools/judge_allocators.py
counts them again from the same trace, with a parser of its own."""
