/* What trace.c, which writes files, places.c, which knows the places of addresses, records.c, which
   writes accesses, filter.c, which leaves some out, objects.c, which knows symbols and blocks,
   sites.c, which knows where code stands, and nameless.c, which knows what has no name, have of
   each other. */
#ifndef PREDATOR_PARTS_H
#define PREDATOR_PARTS_H

#ifdef PREDATOR_RUNTIME
#include "../lib/compat.h"
#else
#include "tool.h"
#endif

#include "format.h"

#define REGION (1UL << 20)
#define PAGE   4096UL

#include "filter.h"

/* ---- trace.c ---- */

/* A file that is written from its front. What stands of the trace is a whole trace after each
   piece: behind each piece stands an end, where the file can be written so. It is taken away before
   the next piece is written, so at any moment, also where a kill comes in the middle of a write,
   the file has the first bytes of the trace, or these and an end. */
typedef struct {
    Int fd;
    const HChar *path;
    UChar *bytes;
    UInt count;
    ULong length; /* what stands in the file, without the end */
    Bool seeks;
    Bool has_name; /* and wasn't handed over open */
} File;

extern File trace_file;
extern UInt trace_room; /* so much is gathered of it before it is written */
void spell(UChar *at, ULong value, UInt bytes);
void trace_put(const UChar *bytes, UInt count); /* a record that is no access */
void table_text(const HChar *format, ...) PRINTF_CHECK(1, 2);

/* ---- places.c ---- */

typedef struct {
    Addr region;    /* its first address */
    UInt place;     /* its first address in the trace */
    ULong pages[4]; /* those that stand in the table */
    Chunk *chunk;   /* of a filtered trace, once something in it was touched */
} Region;

extern Region regions[];
extern UInt region_count;
Int region_of(Addr addr,
              Bool places); /* the region's index, or -1 where it has no place and gets none */
Int region_at(ULong place, UInt *at); /* the index of the one that a place of the trace lies in, and
                                         how far; or -1 */
UInt folded(UInt index, Addr addr);   /* what the address is in the trace */
SizeT part_of(Addr region, Addr addr, SizeT size,
              Addr *first); /* of a range, in a region: its first address and its size */
UInt code_number(void);     /* the next instruction's, or 0 */

/* ---- objects.c and sites.c ---- */

/* The name without the version of a library behind it, of at most so many bytes: its length. */
#define NAME_MOST 1024
UInt plain_length(const HChar *name);
void put_symbol(UInt kind, UInt addr, UInt size, const HChar *name);

/* A file that was mapped, with the address that its first byte of code and its address 0 have. */
typedef struct {
    Addr text;
    const HChar *path;
    Addr bias;
} Library;
extern Library libraries[];
extern UInt library_count;

void note_symbol(Addr addr, UInt size, const HChar *name,
                 Bool only_new); /* one of data; or only where none is known at the address */
void symbols_left_out(const HChar *path, Addr bias);
#ifdef PREDATOR_RUNTIME
#define SYMBOLS_LEFT_OUT(path, bias) (void)0 /* (all were read) */
#else
#define SYMBOLS_LEFT_OUT(path, bias) symbols_left_out(path, bias)
#endif

void sites_begin(void);
void sites_read(const DebugInfo *, UInt library); /* the functions of a library */
UInt site_of(Addr addr); /* the place of a call site, whose row is written once */

Bool sites_are_made(void); /* some instruction lies in no file */
void sites_made(Addr from, SizeT size, const HChar *file,
                const HChar *name); /* those of these that lie there have a name, and FILE:LINE */
#ifdef PREDATOR_RUNTIME
static inline void tell_made_code(void) {} /* (what is made isn't seen) */
#else
void tell_made_code(void);
#endif

void nameless_begin(void);
void tell_file(Addr addr); /* the file that is mapped at an address, unless the table has it */

extern Bool libraries_came;
void objects_begin(void);
void read_libraries(void);       /* the symbols of the files that were mapped since */
void symbols_of(const Region *); /* writes those that lie in a region */
void blocks_of(const Region *);
void tell_untold(void); /* the blocks that were made while nothing was recorded */

#endif
