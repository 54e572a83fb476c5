/* What is written: the trace, version 1 of docs/FORMATS.md, with instructions version 3, or
   filtered version 4; and the address map. */
#include "parts.h"

#define PIECE (1 << 20)
#ifndef FILE_IS_KEPT /* valgrind keeps the tool's files from the program */
#define FILE_IS_KEPT(fd) True
#define KEEP_FILE(fd)
#endif
#ifndef HOLD_SIGNALS /* nor do the program's signals come while the tool runs */
#define HOLD_SIGNALS()
#define LET_SIGNALS()
#endif
#ifndef PROGRAM_PATH
#define PROGRAM_PATH program_path()
#endif

ULong trace_accesses, trace_whole, trace_turns, trace_most, trace_max_bytes;
Bool trace_records, trace_pcs;

File trace_file = {-1};
static File table = {-1};

/* So much is gathered of the trace before it is written: less than a piece where the trace is to
   end soon, for a lack of room. */
#define LEAST_ROOM 8192
UInt trace_room = PIECE;
static ULong most_bytes = NO_DISK; /* what the trace and the address map may take */

static void limit_room(void)
{
    ULong own = trace_file.length + table.length + table.count;
    trace_room = own + 2 * LEAST_ROOM > most_bytes              ? LEAST_ROOM
                 : most_bytes - own - LEAST_ROOM < (ULong)PIECE ? most_bytes - own - LEAST_ROOM
                                                                : PIECE;
}

Bool trace_has(Int fd) { return fd >= 0 && (fd == trace_file.fd || fd == table.fd); }

/* The number of a descriptor that a path names as /dev/fd/N, or -1. It is taken over, and not
   opened once more: the program must not inherit it. */
static Int given_fd(const HChar *path)
{
    Int fd = 0;
    const HChar *at = path + 8;
    if (VG_(strncmp)(path, "/dev/fd/", 8) != 0 || *at == 0)
        return -1;
    for (; *at; at++) {
        if (*at < '0' || *at > '9' || fd > 100000000)
            return -1;
        fd = 10 * fd + *at - '0';
    }
    return fd;
}

static Bool file_open(File *it, const HChar *path, Bool seeks)
{
    Int given = given_fd(path);
    SysRes opened = given >= 0 ? CALL(__NR_fcntl, given, VKI_F_GETFD, 0, 0)
                               : VG_(open)(path, VKI_O_WRONLY | VKI_O_CREAT | VKI_O_TRUNC, 0666);
    if (sr_isError(opened)) {
        VG_(printf)("predator native: %s: %s\n", path, VG_(strerror)(sr_Err(opened)));
        return False;
    }
    it->fd = VG_(safe_fd)(given >= 0 ? given : (Int)sr_Res(opened));
    KEEP_FILE(it->fd);
    it->has_name = given < 0;
    it->path = given < 0 ? VG_(strdup)("predator.path", path)
               : seeks   ? "the trace's pipe"
                         : "the table's pipe";
    it->bytes = VG_(malloc)("predator.file", PIECE + 4096);
    it->count = 0;
    it->length = 0;
    it->seeks = seeks && VG_(lseek)(it->fd, 0, VKI_SEEK_CUR) == 0;
    if (!it->seeks) /* a pipe has room for a whole piece, where the system allows it: the program
                       waits less often */
        CALL(__NR_fcntl, it->fd, VKI_F_SETPIPE_SZ, PIECE, 0);
    return it->fd >= 0;
}

static void file_drop(File *it)
{
    if (it->fd >= 0)
        VG_(close)(it->fd);
    it->fd = -1;
}

/* A write to a pipe that nobody reads, or above a limit, sends a signal that the program must not
 * get. */
static void eat(Int number)
{
    vki_sigset_t set;
    vki_siginfo_t info;
    struct vki_timespec none = {0, 0};
    VG_(sigemptyset)(&set);
    VG_(sigaddset)(&set, number);
    VG_(do_syscall)
    (__NR_rt_sigtimedwait, (UWord)&set, (UWord)&info, (UWord)&none, sizeof set, 0, 0, 0, 0);
}

#ifndef PREDATOR_RUNTIME /* (which has a C library for these) */
ULong bytes_free(Int fd)
{
    struct {
        UWord kind, block_size, blocks, blocks_free, blocks_available, rest[11];
    } disk;
    struct vki_stat about;
    if (sr_isError(CALL(__NR_fstat, fd, &about, 0, 0)) || !VKI_S_ISREG(about.st_mode) ||
        sr_isError(CALL(__NR_fstatfs, fd, &disk, 0, 0)) || disk.blocks == 0)
        return NO_DISK;
    return disk.blocks_available * disk.block_size;
}

static Bool is_deleted(Int fd)
{
    struct vki_stat about;
    return !sr_isError(CALL(__NR_fstat, fd, &about, 0, 0)) && VKI_S_ISREG(about.st_mode) &&
           about.st_nlink == 0;
}

static Bool is_terminal(Int fd)
{
    UChar settings[64];
    return !sr_isError(CALL(__NR_ioctl, fd, VKI_TCGETS, settings, 0));
}

static UInt milliseconds(void) { return VG_(read_millisecond_timer)(); }
#endif

/* How many of the bytes were written, and why no more. */
static UInt all_written(Int fd, const UChar *bytes, UInt count, UWord *error)
{
    UInt done = 0;
    *error = FILE_IS_KEPT(fd) ? 0 : VKI_EBADF;
    HOLD_SIGNALS();
    while (done < count && *error == 0) {
        SysRes wrote = CALL(__NR_write, fd, bytes + done, count - done, 0);
        if (sr_isError(wrote) && sr_Err(wrote) == VKI_EINTR)
            continue;
        if (sr_isError(wrote) || sr_Res(wrote) == 0) {
            *error = sr_isError(wrote) ? sr_Err(wrote) : VKI_ENOSPC;
            eat(VKI_SIGPIPE);
            eat(VKI_SIGXFSZ);
            break;
        }
        done += sr_Res(wrote);
    }
    LET_SIGNALS();
    return done;
}

void spell(UChar *at, ULong value, UInt bytes)
{
    UInt it;
    for (it = 0; it < bytes; it++)
        at[it] = value >> (8 * it);
}

static UInt spell_end(UChar *at, UInt outcome, UInt value)
{
    VG_(memset)(at, 0, END_BYTES);
    at[0] = TAG_END;
    at[1] = outcome;
    spell(at + 5, value, 4);
    spell(at + 17, trace_accesses, 8);
    if (trace_near)
        spell(at + END_BYTES, trace_whole, 8);
    return trace_near ? FILTERED_END_BYTES : END_BYTES;
}

static void file_flush(File *it)
{
    UWord error;
    if (it->fd < 0 || it->count == 0)
        return;
    UInt done = all_written(it->fd, it->bytes, it->count, &error);
    it->length += done;
    it->count = 0;
    if (error != 0) {
        VG_(printf)("predator native: %s: %s\n", it->path, VG_(strerror)(error));
        file_drop(it);
    }
}

static ULong written_accesses, written_whole; /* how many of them stand in the file */

/* What is written takes at most half of what is free on its disk, and no more than was asked for.
 */
static void judge_room(void)
{
    ULong own = trace_file.length + table.length + table.count, free = bytes_free(trace_file.fd),
          most = free == NO_DISK ? NO_DISK : (own + free) / 2;
    Bool by_call = trace_max_bytes > 0 && trace_max_bytes <= most;
    if (by_call)
        most = trace_max_bytes;
    if (own + 2 * LEAST_ROOM > most) {
        HChar why[96];
        VG_(sprintf)
        (why, "%llu bytes were written, %s", own,
         by_call ? "as many as --max-disk allows" : "half of what was free");
        trace_stop(by_call ? "max-disk" : "disk", why);
        return;
    }
    most_bytes = most;
    limit_room();
}

/* How far the recording is, on a terminal, from the second second on. */
static UInt began, shown; /* in milliseconds; `shown` is when it was last */

void trace_show(void)
{
    UInt now = milliseconds();
    if (!shown || now - began < 1000 || now - shown < 250)
        return;
    shown = now;
    VG_(printf)
    ("\rrecording: %llu accesses, %llu MB, %llu turns\033[K\r", trace_whole,
     (trace_file.length + trace_file.count) / 1000000, trace_turns);
}

static void end_progress(void)
{
    if (shown > began)
        VG_(printf)("\r\033[K");
    shown = 0;
}

/* Writes what was gathered, and behind it an end with this outcome and value. */
static void trace_piece(Bool is_last, UInt outcome, UInt value)
{
    UWord error;
    UInt end;
    if (trace_file.fd < 0)
        return;
    end = spell_end(trace_file.bytes + trace_file.count, outcome, value);
    if (!trace_file.seeks && !is_last)
        end = 0;
    if (trace_file.seeks && FILE_IS_KEPT(trace_file.fd))
        CALL(__NR_ftruncate, trace_file.fd, trace_file.length, 0, 0);
    all_written(trace_file.fd, trace_file.bytes, trace_file.count + end, &error);
    if (error == 0) {
        if (trace_file.seeks)
            VG_(lseek)(trace_file.fd, -(Off64T)end, VKI_SEEK_CUR);
        trace_file.length += trace_file.count;
        trace_file.count = 0;
        written_accesses = trace_accesses;
        written_whole = trace_whole;
        if (!is_last) {
            trace_show();
            if (trace_file.seeks)
                judge_room();
        }
        return;
    }
    end_progress();
    VG_(printf)("predator native: %s: %s\n", trace_file.path, VG_(strerror)(error));
    if (!FILE_IS_KEPT(trace_file.fd)) { /* nothing was written, and what stands is whole */
        trace_accesses = written_accesses;
        trace_whole = written_whole;
        VG_(printf)
        ("predator native: the program closed the trace, which ends after %llu accesses, and goes "
         "on\n",
         trace_whole);
    } else if (trace_file.seeks) { /* back to the last whole piece, and its end */
        UChar bytes[FILTERED_END_BYTES];
        trace_accesses = written_accesses;
        trace_whole = written_whole;
        end = spell_end(bytes, OUTCOME_PART, 0);
        VG_(lseek)(trace_file.fd, trace_file.length, VKI_SEEK_SET);
        CALL(__NR_ftruncate, trace_file.fd, trace_file.length, 0, 0);
        if (trace_file.length == 0 || all_written(trace_file.fd, bytes, end, &error) < end)
            VG_(printf)
        ("predator native: %s: what stands there is no whole trace\n", trace_file.path);
        else VG_(printf)(
            "predator native: the trace ends after %llu accesses, and the program goes on\n",
            trace_whole);
    } else {
        VG_(printf)
        ("predator native: what was written of the trace has no end, and the program goes on\n");
    }
    file_drop(&trace_file);
    trace_records = False;
    table_text("end %llu %s\n", trace_accesses, "error");
    file_flush(&table);
}

void trace_put(const UChar *bytes, UInt count)
{
    if (trace_file.count + count > trace_room)
        trace_flush();
    if (trace_file.fd < 0)
        return;
    VG_(memcpy)(trace_file.bytes + trace_file.count, bytes, count);
    trace_file.count += count;
}

void table_text(const HChar *format, ...)
{
    HChar text[3000];
    va_list list;
    File *it = &table;
    if (it->fd < 0)
        return;
    va_start(list, format);
    UInt count = VG_(vsnprintf)(text, sizeof text, format, list);
    va_end(list);
    if (count > sizeof text - 1) {
        count = sizeof text - 1;
        text[count - 1] = '\n';
    }
    if (it->count + count > PIECE)
        file_flush(it);
    if (it->fd < 0)
        return;
    VG_(memcpy)(it->bytes + it->count, text, count);
    it->count += count;
    limit_room();
}

/* ---- The whole ---- */

Bool trace_begin(const HChar *path, const HChar *table_path)
{
    const HChar *own = PROGRAM_PATH;
    HChar name[VG_(strlen)(path) + 8];
    if (!file_open(&trace_file, path, True))
        return False;
    if (table_path == NULL && VG_(strncmp)(path, "/dev/", 5) != 0) {
        VG_(sprintf)(name, "%s.table", path);
        table_path = name;
    }
    if (table_path && !file_open(&table, table_path, False))
        return False;
    began = milliseconds();
    shown = is_terminal(2) ? began : 0;
    if (!filter_begin())
        return False;
    objects_begin();
    nameless_begin();
    table_text("program %s%s%s\n", own[0] == '/' ? "" : VG_(get_startup_wd)(),
               own[0] == '/' ? "" : "/", own);
    return True;
}

Bool trace_start(void)
{
    UChar header[HEADER_BYTES] = "PRDTRC01";
    header[7] = trace_near ? '4' : trace_pcs ? '3' : '1';
    spell(header + 16, MOST_HARTS, 2);
    spell(header + 18, trace_near, 2);
    trace_put(header, HEADER_BYTES);
    trace_flush();
    return trace_file.fd >= 0;
}

Int trace_fd(Bool of_table) { return of_table ? table.fd : trace_file.fd; }

Bool trace_is_open(void) { return trace_file.fd >= 0; }

void trace_flush(void)
{
    file_flush(&table);
    trace_piece(False, OUTCOME_PART, 0);
}

/* A program may delete its own folder, and the trace with it. */
static void look_for_file(void)
{
    if (trace_file.has_name && is_deleted(trace_file.fd))
        VG_(printf)
    ("predator native: %s: the file was deleted while the program ran, so the trace is lost\n",
     trace_file.path);
}

/* What the table says last: how many accesses the trace has, and why it ends. */
static void finish(UInt outcome, UInt value, const HChar *word)
{
    if (trace_file.fd < 0)
        return;
    end_progress();
    look_for_file();
    tell_made_code();
    table_text("end %llu %s\n", trace_accesses, word);
    file_flush(&table);
    trace_piece(True, outcome, value);
    trace_records = False;
    file_drop(&trace_file);
    file_drop(&table);
}

void trace_end(Bool by_exit, Int code)
{
    if (by_exit)
        finish(OUTCOME_EXIT, code, "exit");
    else
        finish(OUTCOME_PART, 0, "signal");
}

#ifndef PREDATOR_RUNTIME
void trace_becomes(Bool another)
{
    table_text("end %llu %s\n", another ? trace_accesses : 0, another ? "exec" : "none");
}
#endif

void trace_stop(const HChar *word, const HChar *why)
{
    if (trace_file.fd < 0)
        return;
    end_progress();
    VG_(printf)
    ("predator native: %s: the trace ends here, after %llu accesses, and the program goes on\n",
     why, trace_whole);
    finish(OUTCOME_PART, 0, word);
}

void trace_leave(void)
{
    file_drop(&trace_file);
    file_drop(&table);
    trace_records = False;
}

void trace_resume(void)
{
    if (libraries_came)
        read_libraries();
    tell_untold();
}
