/* What valgrind itself can't do for a program, or does otherwise than the system: it is mended here
   where it can be, and else said by name before the program goes wrong. */
#include "tool.h"

#include "pub_tool_xarray.h"

/* In valgrind's library, and in none of its headers. */
extern Int VG_(clo_smc_check), VG_(cl_exec_fd), VG_(fd_hard_limit);
extern UInt VG_(vmessage)(VgMsgKind kind, const HChar *format, va_list words);
enum { SMC_NONE, SMC_STACK, SMC_ALL, SMC_ALL_NON_FILE }; /* VgSmc of pub_core_options.h */

/* ---- The path of the program, which valgrind has as it was given ---- */

static const HChar *real_path(void)
{
    static HChar path[VKI_PATH_MAX];
    HChar link[40];
    SSizeT size;
    VG_(sprintf)(link, "/proc/self/fd/%d", VG_(cl_exec_fd));
    size = VG_(readlink)(link, path, sizeof path - 1);
    path[size > 0 ? size : 0] = 0;
    return path;
}

const HChar *program_path(void)
{
    const HChar *given = VG_(args_the_exename);
    return VG_(strchr)(given, '/') ? given : real_path();
}

/* ---- execve of /proc/self/exe, which is valgrind's own program here ---- */

static Bool is_own_program(const HChar *path)
{
    HChar numbered[40];
    VG_(sprintf)(numbered, "/proc/%d/exe", VG_(getpid)());
    return path && VG_(strncmp)(path, "/proc/", 6) == 0 &&
           (VG_(strcmp)(path, "/proc/self/exe") == 0 || VG_(strcmp)(path, numbered) == 0);
}

/* Of a call by which valgrind has a program take this one's place: the path, and behind valgrind's
   own words that of the program that it is to run. */
static void name_program(UWord call, UWord *path, const HChar **words)
{
    Int it;
    if (call != __NR_execve)
        return;
    if (is_own_program((const HChar *)*path)) {
        *path = (UWord)real_path();
        return;
    }
    if (VG_(name_of_launcher) && VG_(strcmp)((const HChar *)*path, VG_(name_of_launcher)) == 0)
        for (it = 1; words && words[it]; it++)
            if (is_own_program(words[it])) {
                words[it] = real_path();
                return;
            }
}

extern SysRes __real_vgPlain_do_syscall(UWord, UWord, UWord, UWord, UWord, UWord, UWord, UWord,
                                        UWord);
SysRes __wrap_vgPlain_do_syscall(UWord call, UWord a, UWord b, UWord c, UWord d, UWord e, UWord f,
                                 UWord g, UWord h);
SysRes __wrap_vgPlain_do_syscall(UWord call, UWord a, UWord b, UWord c, UWord d, UWord e, UWord f,
                                 UWord g, UWord h)
{
    name_program(call, &a, (const HChar **)b);
    return __real_vgPlain_do_syscall(call, a, b, c, d, e, f, g, h);
}

/* ---- Limits of open files, which valgrind doesn't let a program lower for good ---- */

static void lower_hard_limit(UInt call, const UWord *words)
{
    Bool is_newer = call == __NR_prlimit64;
    const ULong *limit = (const ULong *)words[is_newer ? 2 : 1];
    UWord what = words[is_newer ? 1 : 0], whose = is_newer ? words[0] : 0;
    if (call != __NR_setrlimit && !is_newer)
        return;
    if (what != VKI_RLIMIT_NOFILE || (whose != 0 && whose != (UWord)VG_(getpid)()) || !limit ||
        !VG_(am_is_valid_for_client)((Addr)limit, 2 * sizeof *limit, VKI_PROT_READ))
        return;
    if (limit[0] <= limit[1] && limit[1] < (ULong)VG_(fd_hard_limit))
        VG_(fd_hard_limit) = limit[1];
}

/* ---- Code in memory that is mapped twice, once to be written and once to be run ---- */

static struct {
    ULong dev, ino;
    Bool written, run;
} shared_files[64];
static UInt shared_count;

/* From now on code is looked at each time before it runs. */
static void check_code(const HChar *path)
{
    if (VG_(clo_smc_check) == SMC_ALL)
        return;
    VG_(clo_smc_check) = SMC_ALL;
    VG_(discard_translations)(4096, ~0UL - 8191, "predator");
    VG_(printf)
    ("predator native: %s is mapped to be written and to be run: code is compared each time before "
     "it runs (valgrind's --smc-check=all), and the program is slower from here on\n",
     path && *path ? path : "a file");
}

static void note_mapping(Addr addr, UWord rights, Bool is_shared)
{
    const NSegment *it = VG_(am_find_nsegment)(addr);
    Bool written = (rights & VKI_PROT_WRITE) != 0, run = (rights & VKI_PROT_EXEC) != 0;
    UInt at;
    if (!it || it->kind != SkFileC || !(written || run))
        return;
    for (at = 0; at < shared_count; at++)
        if (shared_files[at].dev == it->dev && shared_files[at].ino == it->ino)
            break;
    if (at == shared_count) {
        if (!is_shared || shared_count == sizeof shared_files / sizeof *shared_files) {
            if (written && run)
                check_code(VG_(am_get_filename)(it));
            return;
        }
        shared_files[shared_count].dev = it->dev;
        shared_files[shared_count++].ino = it->ino;
    }
    shared_files[at].written |= written && is_shared;
    shared_files[at].run |= run;
    if (shared_files[at].written && shared_files[at].run)
        check_code(VG_(am_get_filename)(it));
}

/* ---- Mappings that are larger than all memory that valgrind has for a program ---- */

#define GIB       (1UL << 30)
#define MOST      (64 * GIB)
#define ADDRESSES (1UL << 47)

static void name_refusal(UWord size, SysRes result)
{
    static UInt times;
    /* (the system itself refuses a size that the processor has no addresses for) */
    if (sr_isError(result) && size >= MOST / 2 && size < ADDRESSES && times++ < 3)
        VG_(printf)
    ("predator native: the program asks for %lu GiB of addresses at once, and gets \"%s\": under "
     "valgrind all its mappings together have less than 64 GiB\n",
     size / GIB, VG_(strerror)(sr_Err(result)));
}

/* ---- Instructions that valgrind doesn't know ---- */

#define EVEX 0x62 /* what each instruction of AVX-512 begins with */

void core_unknown_code(const IRSB *block)
{
    static UInt times;
    const IRExpr *next = block->next;
    const HChar *path;
    Addr addr, from, to;
    UChar byte;
    if (block->jumpkind != Ijk_NoDecode || next->tag != Iex_Const || times++ > 0)
        return;
    addr = next->Iex.Const.con->Ico.U64;
    if (!VG_(am_is_valid_for_client)(addr, 1, VKI_PROT_READ))
        return;
    byte = *(const UChar *)addr;
    if (!mapping_of(addr, False, &from, &to, &path))
        path = NULL;
    VG_(printf)
    ("predator native: the program comes to an instruction that valgrind doesn't know, at 0x%lx in "
     "%s, and gets SIGILL there: %s\n",
     addr, path ? path : "memory of no file",
     byte == EVEX ? "it is one of AVX-512, so compile that code without -march=native and -mavx512"
                  : "compile that code for an older processor");
}

/* ---- Calls ---- */

void core_before_call(UInt call, const UWord *words) { lower_hard_limit(call, words); }

void core_after_call(UInt call, const UWord *words, SysRes result)
{
    if (call == __NR_mmap && sr_isError(result))
        name_refusal(words[1], result);
    else if (call == __NR_mmap && !(words[3] & VKI_MAP_ANONYMOUS))
        note_mapping(sr_Res(result), words[2],
                     (words[3] & VKI_MAP_SHARED) || (words[2] & VKI_PROT_EXEC && shared_count));
    else if (call == __NR_mprotect && !sr_isError(result) && shared_count)
        note_mapping(words[0], words[2], True);
}

/* ---- What valgrind says of calls that it doesn't know: one line for each ---- */

static Bool begins_with(const HChar *text, const HChar *start)
{
    return VG_(strncmp)(text, start, VG_(strlen)(start)) == 0;
}

/* Whether it is one of the lines of valgrind's that follow such a warning. */
static Bool is_follower(const HChar *format)
{
    return begins_with(format, "You may be able to write your own handler") ||
           begins_with(format, "Read the file README_MISSING_SYSCALL_OR_IOCTL") ||
           begins_with(format, "Nevertheless we consider this a bug") ||
           begins_with(format, "it at http");
}

/* Says it once of each call, and whether there was something to say. */
static Bool fold_warning(const HChar *format, va_list words)
{
    static HChar reported[32][24];
    static UInt reported_count;
    UInt it;
    if (is_follower(format))
        return True;
    if (!begins_with(format, "WARNING: unhandled %s syscall"))
        return begins_with(format, "Warning: noted but unhandled ioctl") ||
               begins_with(format, "   This could cause spurious value errors") ||
               begins_with(format, "   See README_MISSING_SYSCALL_OR_IOCTL");
    (void)va_arg(words, const HChar *); /* the machine */
    const HChar *number = va_arg(words, const HChar *);
    for (it = 0; it < reported_count; it++)
        if (VG_(strcmp)(reported[it], number) == 0)
            return True;
    if (reported_count < 32)
        VG_(strncpy)(reported[reported_count++], number, 23);
    VG_(printf)
    ("predator native: valgrind doesn't know the system call %s, which fails as on an older kernel "
     "(ENOSYS)\n",
     number);
    return True;
}

#define WRAPPED(name, kind)                                                                        \
    UInt __wrap_vgPlain_##name(const HChar *format, ...);                                          \
    UInt __wrap_vgPlain_##name(const HChar *format, ...)                                           \
    {                                                                                              \
        va_list words, copy;                                                                       \
        UInt count = 0;                                                                            \
        va_start(words, format);                                                                   \
        va_copy(copy, words);                                                                      \
        if (!fold_warning(format, copy))                                                           \
            count = VG_(vmessage)(kind, format, words);                                            \
        va_end(copy);                                                                              \
        va_end(words);                                                                             \
        return count;                                                                              \
    }
WRAPPED(dmsg, Vg_DebugMsg)
WRAPPED(umsg, Vg_UserMsg)
