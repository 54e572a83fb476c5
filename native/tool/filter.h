/* What a filtered trace leaves out. An access is redundant where an earlier one is by the same
   thread and in the same word of 4 bytes, that one writes or this one reads, and between the two no
   access of another thread is in the same region of 2^k bytes or in one beside it
   (docs/RULES.md).

   Each region has a number, which rises when a thread comes near that isn't the last one that came
   near, and each word has a stamp of its last access that was kept: its thread, whether it wrote,
   and its region's number then. An access is redundant where a look at these two says so, which
   translated code does by itself (native/tool/looks.c). Where parts of a run are recorded, each
   part is filtered by itself. */
#ifndef PREDATOR_FILTER_H
#define PREDATOR_FILTER_H

/* A stamp has 32 bits; 0 is that of no access. A region's number stands where it has it. */
enum {
    STAMP_WRITES = 1,
    STAMP_THREAD = 1 << 1, /* its hart and 1 */
    STAMP_NUMBER = 1 << 10,
    NO_THREAD = STAMP_NUMBER - STAMP_THREAD, /* stands in no stamp */
};
#define DOUBLED(stamp) ((ULong)(stamp) << 32 | (UInt)(stamp))

/* The stamps of the words of 1 MiB of the program's memory, and of each range of 4 KiB, or 2^k
   bytes where that is less, the number of the region that it lies in, doubled. */
typedef struct {
    UInt stamps[REGION / 4];
    ULong numbers[];
} Chunk;

extern UInt near_bits;  /* k, at most 12 */
extern Chunk *no_chunk; /* where nothing was kept */
Bool filter_begin(void);
UInt *filter_stamps(UInt region, UInt place); /* those of a page, or none where no memory is left */
Bool filter_keeps(UInt hart, Bool writes, UInt place, UInt *stamp);
void filter_part(void); /* no access before this one makes a later one redundant */

#ifndef PREDATOR_RUNTIME
/* By an address of the program less than 2^37, as all are under valgrind. */
#define CHUNK_BITS 17
extern Chunk *chunks_at[1 << CHUNK_BITS];
#endif

#endif
