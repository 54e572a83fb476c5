// There are no folders: what would look into one can't be had.
#ifndef PREDATOR_DIRENT_H
#define PREDATOR_DIRENT_H

#include <predator_missing.h>
#include <sys/types.h>

#ifdef __cplusplus
extern "C" {
#endif

typedef struct predator_folder DIR;

struct dirent {
    ino_t d_ino;
    unsigned char d_type;
    char d_name[256];
};

#define DT_UNKNOWN 0
#define DT_DIR 4
#define DT_REG 8
#define DT_LNK 10

DIR *opendir(const char *path) PREDATOR_NO_FILE;
DIR *fdopendir(int file) PREDATOR_NO_FILE;
struct dirent *readdir(DIR *folder) PREDATOR_NO_FILE;
void rewinddir(DIR *folder) PREDATOR_NO_FILE;
int closedir(DIR *folder) PREDATOR_NO_FILE;
int dirfd(DIR *folder) PREDATOR_NO_FILE;

#ifdef __cplusplus
}
#endif

#endif
