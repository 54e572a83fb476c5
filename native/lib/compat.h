/* What native/tool/trace.c takes from valgrind, for a program that runs by itself. Nothing here
 * takes memory of the program's heap. */
#ifndef PREDATOR_COMPAT_H
#define PREDATOR_COMPAT_H

#define _GNU_SOURCE
#include <errno.h>
#include <fcntl.h>
#include <signal.h>
#include <stdarg.h>
#include <stddef.h>
#include <stdint.h>
#include <stdio.h>
#include <string.h>
#include <sys/ioctl.h>
#include <sys/syscall.h>
#include <time.h>
#include <unistd.h>

typedef unsigned char UChar;
typedef char HChar;
typedef int Int;
typedef unsigned UInt;
typedef long Word;
typedef unsigned long UWord, Addr, SizeT;
typedef unsigned long long ULong;
typedef long Off64T;
typedef _Bool Bool;
typedef UInt ThreadId;
typedef int DiEpoch;
typedef struct {
    Word value; /* or the error, negative */
} SysRes;
#define True               1
#define False              0
#define VG_(name)          predator_##name
#define PRINTF_CHECK(x, y) __attribute__((format(printf, x, y)))
#define MOST_THREADS       256

#define sr_isError(it) ((it).value < 0)
#define sr_Err(it)     ((UWord) - (it).value)
#define sr_Res(it)     ((UWord)(it).value)
/* The C library's `syscall`: the program's calls of that name are looked at (waits.c). */
extern __typeof__(syscall) *own_syscall;
extern volatile int calls_of_trace; /* so many threads are in a call of the system by which a trace
                                       or table is written */
SysRes predator_do_syscall(UWord number, UWord, UWord, UWord, UWord, UWord, UWord, UWord, UWord);
#define CALL(number, a, b, c, d)                                                                   \
    predator_do_syscall(number, (UWord)(a), (UWord)(b), (UWord)(c), (UWord)(d), 0, 0, 0, 0)

#define VKI_O_WRONLY     O_WRONLY
#define VKI_O_CREAT      O_CREAT
#define VKI_O_TRUNC      O_TRUNC
#define VKI_SEEK_SET     SEEK_SET
#define VKI_SEEK_CUR     SEEK_CUR
#define VKI_F_GETFD      F_GETFD
#define VKI_F_SETPIPE_SZ F_SETPIPE_SZ
#define VKI_EBADF        EBADF
#define VKI_EINTR        EINTR
#define VKI_ENOSPC       ENOSPC
#define VKI_SIGPIPE      SIGPIPE
#define VKI_SIGXFSZ      SIGXFSZ
typedef unsigned long vki_sigset_t;
typedef siginfo_t vki_siginfo_t;
#define vki_timespec                    timespec
#define predator_sigemptyset(set)       (*(set) = 0)
#define predator_sigaddset(set, number) (*(set) |= 1UL << ((number)-1))

#define predator_open(path, flags, mode) CALL(SYS_openat, AT_FDCWD, path, (flags) | O_CLOEXEC, mode)
const HChar *predator_program(void);
#define PROGRAM_PATH              predator_program()
#define predator_get_startup_wd() ""
Int predator_safe_fd(Int fd); /* the same file under a high number */
/* A program that closes what isn't its own may get the number for a file of its own: nothing is
 * written there. */
void predator_keep(Int fd);
Bool predator_is_kept(Int fd);
#define KEEP_FILE(fd)    predator_keep(fd)
#define FILE_IS_KEPT(fd) predator_is_kept(fd)
void predator_hold_signals(void); /* those that a write sends which can't be done */
void predator_let_signals(void);
#define HOLD_SIGNALS()     predator_hold_signals()
#define LET_SIGNALS()      predator_let_signals()
#define predator_close(fd) ((void)CALL(SYS_close, fd, 0, 0, 0))
static inline Off64T predator_lseek(Int fd, Off64T to, Int how)
{
    return CALL(SYS_lseek, fd, to, how, 0).value;
}
#define predator_strerror(error) strerrordesc_np(error)
#define predator_memset          memset
#define predator_memcpy          memcpy
#define predator_strlen          strlen
#define predator_strcmp          strcmp
#define predator_strncmp         strncmp
#define predator_strstr          strstr
#define predator_strrchr         strrchr
#define predator_vsnprintf       vsnprintf
#define predator_sprintf         sprintf
void predator_printf(const HChar *format, ...) PRINTF_CHECK(1, 2);
void *predator_malloc(const HChar *, SizeT);
void *predator_realloc(const HChar *, void *, SizeT);
void predator_free(void *);
void *predator_empty_memory(SizeT); /* pages that take no memory until they are written, or none */
#define EMPTY_MEMORY(size) predator_empty_memory(size)
HChar *predator_strdup(const HChar *, const HChar *);

/* Ordered sets. An element's key is its first word. */
typedef struct OSet OSet;
OSet *predator_set(void);
#define predator_OSetGen_Create(offset, compare, make, name, drop) predator_set()
#define predator_OSetWord_Create(make, name, drop)                 predator_set()
void *predator_OSetGen_AllocNode(OSet *, SizeT);
void predator_OSetGen_FreeNode(OSet *, void *);
void predator_OSetGen_Insert(OSet *, void *);
void *predator_OSetGen_Lookup(OSet *, const Addr *);
void *predator_OSetGen_Remove(OSet *, const Addr *);
void predator_OSetGen_ResetIterAt(OSet *, const Addr *);
void *predator_OSetGen_Next(OSet *);
Bool predator_OSetWord_Contains(OSet *, Addr);
void predator_OSetWord_Insert(OSet *, Addr);

/* Files that are mapped, and their symbols. */
typedef struct DebugInfo DebugInfo;
const DebugInfo *predator_next_DebugInfo(const DebugInfo *);
Addr predator_DebugInfo_get_text_avma(const DebugInfo *);
SizeT predator_DebugInfo_get_text_size(const DebugInfo *);
Word predator_DebugInfo_get_text_bias(const DebugInfo *);
const HChar *predator_DebugInfo_get_filename(const DebugInfo *);
Int predator_DebugInfo_syms_howmany(const DebugInfo *);
void predator_DebugInfo_syms_getidx(const DebugInfo *, Int, Addr *, UInt *, const HChar **,
                                    const HChar ***, Bool *, Bool *, Bool *);
const DebugInfo *predator_find_DebugInfo(DiEpoch, Addr);
/* The mapping that an address lies in, if there is one: where it begins and ends, and the path of
   its file, `[heap]` and the like, or none. What is mapped is looked up where that isn't known, or
   `anew`. */
Bool mapping_of(Addr addr, Bool anew, Addr *from, Addr *to, const HChar **path);
#define MAPPED_FILE(addr) NULL /* (each file that is mapped is found by its segments) */
typedef struct InlIPCursor
    InlIPCursor; /* (the lines of code, and what was inlined there, are found by the address map) */
static inline InlIPCursor *predator_new_IIPC(DiEpoch now, Addr addr) { return NULL; }
static inline Bool predator_next_IIPC(InlIPCursor *it) { return False; }
static inline void predator_delete_IIPC(InlIPCursor *it) {}
static inline const HChar *predator_describe_IP(DiEpoch now, Addr addr, const InlIPCursor *it)
{
    return "";
}
#define predator_current_DiEpoch() 0
static inline Bool predator_get_filename_linenum(DiEpoch now, Addr addr, const HChar **file,
                                                 const HChar **folder, UInt *line)
{
    *file = *folder = "";
    *line = 0;
    return False;
}
Bool predator_get_objname(DiEpoch, Addr, const HChar **);
UInt predator_get_StackTrace(ThreadId, Addr *calls, UInt most, Addr *, Addr *, Word);

#include "../tool/trace.h"

Bool is_deleted(Int fd); /* a file without a name any more */
static inline Bool is_terminal(Int fd)
{
    UChar settings[64];
    return !sr_isError(CALL(SYS_ioctl, fd, TCGETS, settings, 0));
}
static inline UInt milliseconds(void)
{
    struct timespec now;
    clock_gettime(CLOCK_MONOTONIC, &now);
    return now.tv_sec * 1000UL + now.tv_nsec / 1000000;
}

#endif
