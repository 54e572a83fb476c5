/* One thread writes a table and three read it, a transaction for each value; the table's folder is the first word. */
#include <lmdb.h>
#include <pthread.h>
#include <stdio.h>
#include <stdlib.h>
#include <string.h>

#define KEYS 100
#define WRITES 500
#define READS 1500

static MDB_env *table;
static MDB_dbi names;

static void must(int status)
{
    if (status == 0)
        return;
    fprintf(stderr, "lmdb: %s\n", mdb_strerror(status));
    exit(1);
}

static void put(MDB_txn *its, int key, int value)
{
    char text[100];
    memset(text, value, sizeof text);
    MDB_val name = {sizeof key, &key}, what = {sizeof text, text};
    must(mdb_put(its, names, &name, &what, 0));
}

static void *write_all(void *none)
{
    for (int i = 0; i < WRITES; i++) {
        MDB_txn *its;
        must(mdb_txn_begin(table, 0, 0, &its));
        put(its, i % KEYS, i);
        must(mdb_txn_commit(its));
    }
    return none;
}

static void *read_all(void *none)
{
    for (int i = 0; i < READS; i++) {
        int key = i % KEYS;
        MDB_txn *its;
        MDB_val name = {sizeof key, &key}, what;
        must(mdb_txn_begin(table, 0, MDB_RDONLY, &its));
        must(mdb_get(its, names, &name, &what));
        mdb_txn_abort(its);
    }
    return none;
}

int main(int count, char **words)
{
    pthread_t threads[4];
    MDB_txn *its;
    must(count == 2 ? 0 : 22);
    must(mdb_env_create(&table));
    must(mdb_env_set_mapsize(table, 16 << 20));
    must(mdb_env_open(table, words[1], MDB_NOSYNC, 0600));
    must(mdb_txn_begin(table, 0, 0, &its));
    must(mdb_dbi_open(its, 0, MDB_INTEGERKEY, &names));
    for (int i = 0; i < KEYS; i++)
        put(its, i, i);
    must(mdb_txn_commit(its));
    for (int i = 0; i < 4; i++)
        pthread_create(&threads[i], 0, i ? read_all : write_all, 0);
    for (int i = 0; i < 4; i++)
        pthread_join(threads[i], 0);
    mdb_env_close(table);
    puts("read and written");
    return 0;
}
