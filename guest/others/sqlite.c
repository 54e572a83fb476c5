// Four threads, each with a connection of its own to a database of its own in memory, which the first thread has opened: each puts rows in,
// and sums them up by an index. Nothing is shared but what SQLite itself shares.
#include <errno.h>
#include <pthread.h>
#include <sqlite3.h>
#include <stdio.h>
#include <stdlib.h>
#include <string.h>

#define THREADS 4
#define ROWS 20

static void must(int answer, sqlite3 *db)
{
    if (answer != SQLITE_OK && answer != SQLITE_DONE && answer != SQLITE_ROW) {
        fprintf(stderr, "%s\n", sqlite3_errmsg(db));
        exit(1);
    }
}

static sqlite3_stmt *prepared(sqlite3 *db, const char *text)
{
    sqlite3_stmt *made;
    must(sqlite3_prepare_v2(db, text, -1, &made, NULL), db);
    return made;
}

static void *work(void *opened)
{
    sqlite3 *db = opened;
    must(sqlite3_exec(db, "CREATE TABLE words(size INTEGER, word TEXT); CREATE INDEX by_size ON words(size)", NULL, NULL, NULL), db);
    sqlite3_stmt *put = prepared(db, "INSERT INTO words VALUES(?, ?)");
    for (int i = 0; i < ROWS; i++) {
        must(sqlite3_bind_int(put, 1, i % 7), db);
        must(sqlite3_bind_text(put, 2, "seven letters", i % 13, SQLITE_STATIC), db);
        must(sqlite3_step(put), db);
        must(sqlite3_reset(put), db);
    }
    must(sqlite3_finalize(put), db);
    sqlite3_stmt *sum = prepared(db, "SELECT sum(length(word)) FROM words WHERE size = ?");
    long total = 0;
    for (int i = 0; i < 7; i++) {
        must(sqlite3_bind_int(sum, 1, i), db);
        must(sqlite3_step(sum), db);
        total += sqlite3_column_int(sum, 0);
        must(sqlite3_reset(sum), db);
    }
    must(sqlite3_finalize(sum), db);
    return (void *)total;
}

#ifdef OWN_LINES
// Blocks that have their lines of 64 bytes to themselves. The first eight bytes hold the size.
static void *take(int size)
{
    int *block = aligned_alloc(64, (size + 8 + 63) & -64);
    if (block == NULL)
        return NULL;
    *block = size;
    return block + 2;
}

static void give_back(void *block)
{
    if (block != NULL)
        free((int *)block - 2);
}

static int size_of(void *block)
{
    return ((int *)block)[-2];
}

static void *take_again(void *block, int size)
{
    void *made = take(size);
    if (made == NULL)
        return NULL;
    memcpy(made, block, size < size_of(block) ? size : size_of(block));
    give_back(block);
    return made;
}

static int rounded(int size)
{
    return (size + 7) & -8;
}

static int begin(void *unused)
{
    (void)unused;
    return SQLITE_OK;
}

static void end(void *unused)
{
    (void)unused;
}

static const sqlite3_mem_methods own_lines = {take, give_back, take_again, size_of, rounded, begin, end, NULL};
#endif

// (SQLite looks for random numbers in a file, and goes without where there is none.)
static int open_nothing(const char *path, int flags, int mode)
{
    (void)path, (void)flags, (void)mode;
    errno = ENOENT;
    return -1;
}

int main(void)
{
    pthread_t threads[THREADS];
    sqlite3 *opened[THREADS];
#ifdef NO_STATISTICS
    sqlite3_config(SQLITE_CONFIG_MEMSTATUS, 0);
#endif
#ifdef OWN_LINES
    sqlite3_config(SQLITE_CONFIG_MALLOC, &own_lines);
#endif
    sqlite3_initialize();
    sqlite3_vfs *files = sqlite3_vfs_find(NULL);
    files->xSetSystemCall(files, "open", (sqlite3_syscall_ptr)open_nothing);
    for (int i = 0; i < THREADS; i++)
        if (sqlite3_open(":memory:", &opened[i]) != SQLITE_OK)
            return 2;
    for (int i = 0; i < THREADS; i++)
        if (pthread_create(&threads[i], NULL, work, opened[i]) != 0)
            return 3;
    for (int i = 0; i < THREADS; i++) {
        void *total;
        pthread_join(threads[i], &total);
        printf("%d: %ld\n", i, (long)total);
        sqlite3_close(opened[i]);
    }
    return 0;
}
