// The streams: what is printed to stdout and stderr is put out by the call `write`, to file 1 and 2, at the end of each call of printf
// and its like and not before. So lines of different harts aren't mixed, no hart waits for another one, and no hart has a buffer
// that another one uses. There is nothing to read.
#include <stdarg.h>
#include <stdio.h>
#include <string.h>
#include "../predator.h"

static int nothing(FILE *stream)
{
    (void)stream;
    return _FDEV_EOF;
}

static int put_out(char byte, FILE *stream)
{
    return predator_write(stream == stdout ? 1 : 2, &byte, 1) == 1 ? (unsigned char)byte : EOF;
}

static FILE in = FDEV_SETUP_STREAM(NULL, nothing, NULL, _FDEV_SETUP_READ);
static FILE out = FDEV_SETUP_STREAM(put_out, NULL, NULL, _FDEV_SETUP_WRITE);
static FILE err = FDEV_SETUP_STREAM(put_out, NULL, NULL, _FDEV_SETUP_WRITE);

FILE *const stdin = &in;
FILE *const stdout = &out;
FILE *const stderr = &err;

// ---- what a call prints, gathered on its stack

struct gathered {
    FILE stream;
    int file;
    size_t count;
    char bytes[256];
};

static void let_go(struct gathered *to)
{
    if (to->count > 0)
        predator_write(to->file, to->bytes, to->count);
    to->count = 0;
}

static int gather(char byte, FILE *stream)
{
    struct gathered *to = (struct gathered *)stream;
    if (to->count == sizeof to->bytes)
        let_go(to);
    to->bytes[to->count++] = byte;
    return (unsigned char)byte;
}

int __real_vfprintf(FILE *stream, const char *format, va_list values);

int __wrap_vfprintf(FILE *stream, const char *format, va_list values)
{
    if (stream != stdout && stream != stderr)
        return __real_vfprintf(stream, format, values);
    struct gathered to;
    to.stream = (FILE)FDEV_SETUP_STREAM(gather, NULL, NULL, _FDEV_SETUP_WRITE);
    to.file = stream == stdout ? 1 : 2;
    to.count = 0;
    int answer = __real_vfprintf(&to.stream, format, values);
    let_go(&to);
    return answer;
}

// ---- what needs no gathering

static size_t put_all(const char *bytes, size_t count, FILE *stream)
{
    size_t done = 0;
    int file = stream == stdout ? 1 : stream == stderr ? 2 : 0;
    while (done < count && file != 0) {
        int now = predator_write(file, bytes + done, count - done);
        if (now <= 0)
            return done;
        done += (size_t)now;
    }
    while (done < count && stream->put != NULL && stream->put(bytes[done], stream) >= 0)
        done++;
    return done;
}

size_t fwrite(const void *bytes, size_t size, size_t count, FILE *stream)
{
    return size == 0 ? 0 : put_all(bytes, size * count, stream) / size;
}

int fputs(const char *text, FILE *stream)
{
    size_t length = strlen(text);
    return put_all(text, length, stream) == length ? 0 : EOF;
}

int puts(const char *text)
{
    return printf("%s\n", text) < 0 ? EOF : 0;
}

// Nothing is kept back, in no stream.
int fflush(FILE *stream)
{
    return stream != NULL && stream->flush != NULL ? stream->flush(stream) : 0;
}
