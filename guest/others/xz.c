// A text of words that come again, compressed by liblzma in blocks of 4 KiB by four threads of its own, and unpacked to see that it is whole.
#include <lzma.h>
#include <stdio.h>
#include <stdlib.h>
#include <string.h>

#include "text.h"

#define THREADS 4
#define SIZE (6 * BLOCK)
#define BLOCK (4 << 10)
// How many milliseconds a call waits for its threads: 0 for as long as it takes.
#ifndef TIMEOUT
#define TIMEOUT 0
#endif

int main(void)
{
    static uint8_t packed[2 * SIZE], again[SIZE];
    lzma_stream stream = LZMA_STREAM_INIT;
    lzma_mt how = {.threads = THREADS, .block_size = BLOCK, .preset = 0, .check = LZMA_CHECK_CRC32, .timeout = TIMEOUT};
    lzma_ret answer;
    long turns = 0;
    char *text = made_text(SIZE);
    if (lzma_stream_encoder_mt(&stream, &how) != LZMA_OK)
        return 1;
    stream.next_in = (uint8_t *)text;
    stream.avail_in = SIZE;
    stream.next_out = packed;
    stream.avail_out = sizeof packed;
    while ((answer = lzma_code(&stream, LZMA_FINISH)) == LZMA_OK)
        turns++;
    if (answer != LZMA_STREAM_END)
        return 2;
    size_t size = sizeof packed - stream.avail_out, from = 0, to = 0;
    lzma_end(&stream);
    printf("%zu bytes of %d\n", size, SIZE);
    if (TIMEOUT > 0)
        printf("%s turns\n", turns > 0 ? "several" : "no");
    uint64_t most = UINT64_MAX;
    if (lzma_stream_buffer_decode(&most, 0, NULL, packed, &from, size, again, &to, SIZE) != LZMA_OK || to != SIZE)
        return 3;
    return memcmp(text, again, SIZE) == 0 ? 0 : 4;
}
