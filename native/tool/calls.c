/* Calls of the system: which of them wait, and for what. A thread that waits for another one comes
   back once it was woken, and one whose call waits for nobody keeps its turn; so the order of these
   is the same on every run. Any other call takes its time. */
#include "tool.h"

static Addr waits_at[MOST_THREADS + 1]; /* the word that a thread waits at, or 0 */
static Addr
    ends_at[MOST_THREADS + 1]; /* the word at which the system wakes those that join the thread */
static Addr next_word;         /* that of the thread that is about to be made */

void calls_create(ThreadId parent, ThreadId child) { ends_at[child] = parent ? next_word : 0; }

void calls_exit(ThreadId tid)
{
    ThreadId it;
    for (it = 1; ends_at[tid] && it <= MOST_THREADS; it++)
        if (waits_at[it] == ends_at[tid]) {
            turns_woke(1);
            break;
        }
    turns_leaves(ends_at[tid]);
    ends_at[tid] = 0;
}

void calls_forked(ThreadId tid)
{
    ThreadId it;
    for (it = 1; it <= MOST_THREADS; it++)
        if (it != tid)
            waits_at[it] = ends_at[it] = 0;
}

enum { FUTEX_WAKE_OP = 5, FUTEX_WAIT_BITSET = 9, FUTEX_WAKE_BITSET = 10 };

static Bool is_futex(UInt call, const UWord *words, UInt one, UInt other, UInt third)
{
    UInt what = words[1] & 127;
    return call == __NR_futex && (what == one || what == other || what == third);
}

static Bool is_wait(UInt call, const UWord *words)
{
    return is_futex(call, words, VKI_FUTEX_WAIT, FUTEX_WAIT_BITSET, FUTEX_WAIT_BITSET);
}

static Bool is_wake(UInt call, const UWord *words)
{
    return is_futex(call, words, VKI_FUTEX_WAKE, FUTEX_WAKE_OP, FUTEX_WAKE_BITSET);
}

/* Another word than a thread's own may be shared with another program, which wakes it when it
 * likes. */
static Bool is_shared(const UWord *words)
{
    ThreadId it;
    if (words[1] & VKI_FUTEX_PRIVATE_FLAG)
        return False;
    for (it = 1; it <= MOST_THREADS; it++)
        if (ends_at[it] == words[0])
            return False;
    return True;
}

/* How many threads a wake has brought back. Some of those at a shared word may be another
 * program's. */
static UInt woken(const UWord *words, UInt count)
{
    UInt own = 0;
    ThreadId it;
    if (!is_shared(words))
        return count;
    for (it = 1; it <= MOST_THREADS; it++)
        own += waits_at[it] == words[0];
    return count < own ? count : own;
}

/* Whether a file lies on a disk of this machine: nobody else is needed to read or write it. */
static Bool lies_here(UWord number, UWord folder, UWord path, UWord flags)
{
    struct vki_stat it;
    if (sr_isError(CALL(number, folder, number == __NR_fstat ? (UWord)&it : path, &it, flags)))
        return False;
    return (VKI_S_ISREG(it.st_mode) || VKI_S_ISDIR(it.st_mode)) && (it.st_dev >> 8 & 0xfff) != 0;
}

/* The kinds of file systems that have no device of their own, by what statfs says of them (the
   kernel's linux/magic.h). */
enum { TMPFS_MAGIC = 0x01021994, OVERLAYFS_SUPER_MAGIC = 0x794c7630 };

static Bool lies_in_memory(UWord fd)
{
    struct {
        Word kind, rest[15];
    } of;
    struct vki_stat it;
    if (sr_isError(CALL(__NR_fstatfs, fd, &of, 0, 0)) ||
        sr_isError(CALL(__NR_fstat, fd, &it, 0, 0)))
        return False;
    return (VKI_S_ISREG(it.st_mode) || VKI_S_ISDIR(it.st_mode)) &&
           (of.kind == TMPFS_MAGIC || of.kind == OVERLAYFS_SUPER_MAGIC);
}

/* A call that comes back at once, or by the disk alone. */
static Bool waits_for_nobody(UInt call, const UWord *words)
{
    switch (call) {
    case __NR_madvise:
        return True;
    case __NR_open:
        return lies_here(__NR_newfstatat, (UWord)(Word)VKI_AT_FDCWD, words[0], 0);
    case __NR_openat:
        return lies_here(__NR_newfstatat, words[0], words[1], 0);
    case __NR_read:
    case __NR_write:
    case __NR_pread64:
    case __NR_pwrite64:
    case __NR_readv:
    case __NR_writev:
    case __NR_preadv:
    case __NR_pwritev:
    case __NR_fsync:
    case __NR_fdatasync:
    case __NR_ftruncate:
    case __NR_fallocate:
    case __NR_getdents:
    case __NR_getdents64:
    case __NR_close:
        return lies_here(__NR_fstat, words[0], 0, 0) || lies_in_memory(words[0]);
    default:
        return False;
    }
}

void calls_before(ThreadId tid, UInt call, const UWord *words)
{
    Bool waits = is_wait(call, words);
    if (waits)
        turns_call(tid, is_shared(words) ? CALL_SHARES : CALL_WAITS);
    else if (is_wake(call, words) || waits_for_nobody(call, words))
        turns_call(tid, CALL_KEEPS);
    else
        turns_call(tid, call == __NR_sched_yield ? CALL_YIELDS : CALL_OTHER);
    waits_at[tid] = waits ? words[0] : 0;
    if (call == __NR_clone)
        next_word = words[0] & VKI_CLONE_CHILD_CLEARTID ? words[3] : 0;
    if (call == __NR_set_tid_address && ends_at[tid])
        ends_at[tid] = words[0];
}

void calls_after(ThreadId tid, UInt call, const UWord *words, SysRes result)
{
    if (waits_at[tid] && sr_isError(result))
        turns_unwoken(tid);
    if (is_wake(call, words) && !sr_isError(result))
        turns_woke(woken(words, sr_Res(result)));
    turns_call(tid, CALL_OTHER);
    waits_at[tid] = 0;
}
