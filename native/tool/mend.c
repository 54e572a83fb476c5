/* Gives a trace an end that was cut where its program was killed: what is left of a last record
   that isn't whole goes, and an end as `part` takes its place.

       mend TRACE      in the file; one that has its end stays as it is, and another file is refused
       mend -          from standard input to standard output; what is no such trace is copied */
#define _GNU_SOURCE
#include <errno.h>
#include <fcntl.h>
#include <stdint.h>
#include <stdio.h>
#include <string.h>
#include <unistd.h>

#include "format.h"

#define LONGEST (SYMBOL_HEAD_BYTES + 65535) /* a symbol whose name is as long as can be spelled */
#define PIECE   (1 << 18)

static unsigned char bytes[PIECE + LONGEST];
static uint64_t accesses;
static char version;
static enum { BEGINS, GOES_ON, ENDED, STRANGE } state;

static int say(const char *path, const char *what)
{
    fprintf(stderr, "predator native: %s: %s\n", path, what);
    return 1;
}

/* Of a number in groups of seven bits: its size, or 0 where more bytes are needed. */
static size_t number_size(const unsigned char *it, size_t count)
{
    size_t size;
    for (size = 1; size <= count && size <= LONGEST_NUMBER; size++)
        if (it[size - 1] < 128 || size == LONGEST_NUMBER)
            return size;
    return 0;
}

/* The same of an access of a later version: its tag, its hart, and one number, or from version 3 on
   two. */
static size_t access_size(const unsigned char *it, size_t count)
{
    size_t size = 2, own;
    int numbers;
    for (numbers = version == '2' ? 1 : 2; numbers > 0; numbers--) {
        own = size < count ? number_size(it + size, count - size) : 0;
        if (own == 0)
            return 0;
        size += own;
    }
    return size;
}

static size_t end_size(void) { return version == '4' ? FILTERED_END_BYTES : END_BYTES; }

/* The size of the record that begins here, or 0 where more bytes are needed or it is no record. */
static size_t size_of(const unsigned char *it, size_t count)
{
    switch (*it) {
    case TAG_ALLOC:
        return ALLOC_BYTES;
    case TAG_END:
        return end_size();
    case TAG_FREE:
        return FREE_BYTES;
    case TAG_SYMBOL:
        return count < SYMBOL_HEAD_BYTES ? 0 : SYMBOL_HEAD_BYTES + (it[10] | it[11] << 8);
    case TAG_READ:
    case TAG_WRITE:
        if (version == '1')
            return ACCESS_BYTES;
        break;
    case TAG_READ_OF_SIZE | 1:
    case TAG_READ_OF_SIZE | 2:
    case TAG_READ_OF_SIZE | 4:
    case TAG_WRITE_OF_SIZE | 1:
    case TAG_WRITE_OF_SIZE | 2:
    case TAG_WRITE_OF_SIZE | 4:
        if (version != '1')
            return access_size(it, count);
    }
    state = STRANGE;
    return 0;
}

/* How many of the bytes are whole records. */
static size_t whole(const unsigned char *from, size_t count)
{
    size_t place = 0, size;
    if (state == BEGINS) {
        if (count < HEADER_BYTES)
            return 0;
        version = from[7];
        state =
            memcmp(from, "PRDTRC0", 7) == 0 && '1' <= version && version <= '4' ? GOES_ON : STRANGE;
        place = HEADER_BYTES;
    }
    while (state == GOES_ON && place < count) {
        size = size_of(from + place, count - place);
        if (size == 0 || size > count - place)
            break;
        accesses += from[place] <= TAG_WRITE || from[place] > TAG_END;
        if (from[place] == TAG_END)
            state = ENDED;
        place += size;
    }
    return place;
}

static int put(int file, const unsigned char *from, size_t count)
{
    while (count > 0) {
        ssize_t done = write(file, from, count);
        if (done < 0 && errno != EINTR)
            return 0;
        from += done > 0 ? done : 0;
        count -= done > 0 ? done : 0;
    }
    return 1;
}

static int put_end(int file)
{
    unsigned char end[FILTERED_END_BYTES] = {TAG_END, OUTCOME_PART};
    int it;
    /* (of a filtered trace nobody knows any more how many were left out) */
    for (it = 0; it < 8; it++)
        end[17 + it] = end[END_BYTES + it] = accesses >> (8 * it);
    return put(file, end, end_size());
}

/* Reads a trace, and copies it to a file where there is one, but for a last record that isn't
   whole. `place` is behind the last whole one, and `left` how many bytes follow there. */
static int read_records(int from, int to, uint64_t *place, size_t *left)
{
    size_t count = 0, done;
    ssize_t more;
    *place = *left = 0;
    while ((more = read(from, bytes + count, PIECE)) != 0) {
        if (more < 0 && errno == EINTR)
            continue;
        if (more < 0)
            return 0;
        count += more;
        done = state <= GOES_ON ? whole(bytes, count) : 0;
        *place += done;
        if (state > GOES_ON) { /* no record is looked for any more */
            *left += count - done;
            done = count;
        }
        if (to >= 0 && !put(to, bytes, done))
            return 0;
        count -= done;
        memmove(bytes, bytes + done, count);
    }
    *left += count;
    return 1;
}

static int copy(void)
{
    uint64_t place;
    size_t left;
    fcntl(1, F_SETPIPE_SZ, 1 << 20); /* where the system allows it */
    if (!read_records(0, 1, &place, &left))
        return say("the trace's pipe", strerror(errno));
    /* (of what is no trace, all bytes) */
    if (state == GOES_ON ? !put_end(1) : state == BEGINS && !put(1, bytes, left))
        return say("the trace's pipe", strerror(errno));
    return 0;
}

int main(int argc, char **argv)
{
    uint64_t place;
    size_t left;
    int file;
    if (argc != 2)
        return fputs("usage: mend TRACE | mend -\n", stderr), 1;
    if (strcmp(argv[1], "-") == 0)
        return copy();
    file = open(argv[1], O_RDWR);
    if (file < 0 || !read_records(file, -1, &place, &left))
        return say(argv[1], strerror(errno));
    if (state == ENDED && left == 0)
        return printf("%s: %llu accesses, and its end: it stays as it is\n", argv[1],
                      (unsigned long long)accesses),
               0;
    if (state != GOES_ON)
        return say(argv[1], "this is no trace that was cut");
    if (ftruncate(file, place) != 0 || lseek(file, place, SEEK_SET) < 0 || !put_end(file))
        return say(argv[1], strerror(errno));
    printf("%s: cut at byte %llu, behind %llu accesses, where it ends now%s\n", argv[1],
           (unsigned long long)place, (unsigned long long)accesses,
           version == '4' ? "; how many were left out isn't known" : "");
    return 0;
}
