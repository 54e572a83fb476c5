// What SQLite takes the time to be, before and after a wait of two seconds that it asks for.
#include <sqlite3.h>
#include <stdio.h>

static int now(sqlite3 *db)
{
    sqlite3_stmt *seconds;
    if (sqlite3_prepare_v2(db, "SELECT strftime('%s', 'now')", -1, &seconds, NULL) != SQLITE_OK || sqlite3_step(seconds) != SQLITE_ROW)
        return -1;
    int answer = sqlite3_column_int(seconds, 0);
    sqlite3_finalize(seconds);
    return answer;
}

int main(void)
{
    sqlite3 *db;
    if (sqlite3_open(":memory:", &db) != SQLITE_OK)
        return 1;
    int before = now(db);
    sqlite3_sleep(2000);
    int after = now(db);
    printf("%d seconds\n", after - before);
    return before < 0 || after < before + 2 || after > before + 3;
}
