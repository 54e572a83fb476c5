// What time it is when the program begins, as minimap2 sees it or, with SQLITE, SQLite.
#include <stdio.h>
#ifdef SQLITE
#include <sqlite3.h>

int main(void)
{
    sqlite3 *db;
    sqlite3_stmt *now;
    if (sqlite3_open(":memory:", &db) != SQLITE_OK ||
        sqlite3_prepare_v2(db, "SELECT datetime('now')", -1, &now, NULL) != SQLITE_OK || sqlite3_step(now) != SQLITE_ROW)
        return 1;
    printf("begins at %s\n", (const char *)sqlite3_column_text(now, 0));
    return 0;
}
#else
double realtime(void);

int main(void)
{
    printf("begins at %.3f\n", realtime());
    return 0;
}
#endif
