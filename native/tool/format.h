/* The numbers of a trace's format (docs/FORMATS.md), for what writes a trace and what mends one. */
#ifndef PREDATOR_FORMAT_H
#define PREDATOR_FORMAT_H

/* How many bytes the parts of a trace have. */
enum {
    HEADER_BYTES = 20,
    ALLOC_BYTES = 25,
    FREE_BYTES = 5,
    SYMBOL_HEAD_BYTES = 12,
    END_BYTES = 25,
    FILTERED_END_BYTES =
        END_BYTES + 8 /* of version 4, with the number of accesses that were filtered */
};
/* An access has 8 bytes in version 1. In later versions it has a tag, a hart, and one number, or
   from version 3 on two, of at most LONGEST_NUMBER bytes each. */
enum { ACCESS_BYTES = 8, LONGEST_NUMBER = 5, LONGEST_ACCESS = 2 + 2 * LONGEST_NUMBER };

/* What a record begins with. */
enum {
    TAG_READ = 1,
    TAG_WRITE = 2,
    TAG_ALLOC = 3,
    TAG_FREE = 4,
    TAG_SYMBOL = 5,
    TAG_END = 6,
    /* of an access in later versions: with its size, 1, 2 or 4 */
    TAG_READ_OF_SIZE = 0x10,
    TAG_WRITE_OF_SIZE = 0x20,
};

/* What a symbol is of. */
enum { SYMBOL_OF_DATA = 1, SYMBOL_OF_CODE = 2 };

/* How a program ended. */
enum { OUTCOME_EXIT = 0, OUTCOME_PART = 4 };

#endif
