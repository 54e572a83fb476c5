// A text of words that come again, compressed by zstd in jobs of 32 KiB for four threads of its own, and unpacked to see that it is whole.
#include <stdio.h>
#include <stdlib.h>
#include <string.h>
#include <zstd.h>

#include "text.h"

#define THREADS 4
#define SIZE (4 * JOB)
#define JOB (32 << 10)

static size_t must(size_t answer)
{
    if (ZSTD_isError(answer)) {
        fprintf(stderr, "%s\n", ZSTD_getErrorName(answer));
        exit(1);
    }
    return answer;
}

int main(void)
{
    size_t room = ZSTD_compressBound(SIZE);
    char *text = made_text(SIZE), *packed = malloc(room), *again = malloc(SIZE);
    ZSTD_CCtx *context = ZSTD_createCCtx();
    if (packed == NULL || again == NULL || context == NULL)
        return 2;
    must(ZSTD_CCtx_setParameter(context, ZSTD_c_compressionLevel, 1));
    must(ZSTD_CCtx_setParameter(context, ZSTD_c_nbWorkers, THREADS));
    must(ZSTD_CCtx_setParameter(context, ZSTD_c_jobSize, JOB));
    size_t size = must(ZSTD_compress2(context, packed, room, text, SIZE));
    ZSTD_freeCCtx(context);
    printf("%zu bytes of %d\n", size, SIZE);
    return must(ZSTD_decompress(again, SIZE, packed, size)) != SIZE || memcmp(text, again, SIZE) != 0 ? 3 : 0;
}
