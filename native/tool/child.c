/* Which process is recorded with --child: the first of those that come of the program in which
   there is something to record. That is who takes the one byte of a pipe; none writes anything
   before. Until then the pipe and the files are handed on, to what is forked and to what a process
   becomes. */
#include "tool.h"

#include "pub_tool_xarray.h"

#define FIONREAD 0x541B

Int child_token = -1, child_root;
static Bool hands_on;

static void drop(void)
{
    VG_(close)(child_token);
    child_token = -1;
}

static Bool is_there(void)
{
    Int count = 0;
    return child_token >= 0 && !sr_isError(CALL(__NR_ioctl, child_token, FIONREAD, &count, 0)) &&
           count > 0;
}

/* A word for valgrind, where the process becomes another program. */
static void pass(const HChar *format, Int number)
{
    HChar text[64];
    VG_(sprintf)(text, format, number);
    const HChar *word = VG_(strdup)("predator.word", text);
    VG_(addToXA)(VG_(args_for_valgrind), &word);
}

void child_begin(void)
{
    if (child_token < 0)
        return;
    child_token = VG_(safe_fd)(child_token);
    if (child_root == 0)
        child_root = VG_(getpid)();
    pass("--root=%d", child_root);
    pass("--child=%d", child_token);
    pass("--trace=/dev/fd/%d", trace_fd(False));
    if (trace_fd(True) >= 0)
        pass("--table=/dev/fd/%d", trace_fd(True));
}

Bool child_waits(void) { return child_token >= 0; }

Bool child_takes(void)
{
    HChar byte;
    Bool is_first;
    if (VG_(getpid)() == child_root)
        return False;
    is_first = VG_(read)(child_token, &byte, 1) == 1;
    drop();
    if (is_first)
        return trace_start();
    trace_leave();
    return False;
}

Bool child_follows(void)
{
    if (is_there())
        return True;
    if (child_token >= 0)
        drop();
    return False;
}

static void keep(Int fd, Bool keeps)
{
    if (fd >= 0)
        CALL(__NR_fcntl, fd, VKI_F_SETFD, keeps ? 0 : VKI_FD_CLOEXEC, 0);
}

void child_becomes(Bool another)
{
    hands_on = another && is_there();
    if (child_token < 0)
        return;
    keep(child_token, hands_on);
    keep(trace_fd(False), hands_on);
    keep(trace_fd(True), hands_on);
}

/* A program with another user's rights, which valgrind would have fail, and one for another machine
 * run without the tool. */
static Bool can_be_run(const HChar *path)
{
    struct vki_stat it;
    UChar head[20] = {0};
    SysRes file;
    if (sr_isError(CALL(__NR_stat, path, &it, 0, 0)) || (it.st_mode & (VKI_S_ISUID | VKI_S_ISGID)))
        return False;
    file = VG_(open)(path, VKI_O_RDONLY, 0);
    if (sr_isError(file))
        return False;
    VG_(read)(sr_Res(file), head, sizeof head);
    VG_(close)(sr_Res(file));
    return VG_(memcmp)(head, "\177ELF", 4) != 0 ||
           (head[4] == 2 && head[18] == 62 && head[19] == 0);
}

/* Valgrind's own answer, turned to this one by the linker's --wrap. */
Bool __wrap_vgPlain_should_we_trace_this_child(const HChar *name, const HChar **words);
Bool __wrap_vgPlain_should_we_trace_this_child(const HChar *name, const HChar **words)
{
    if (hands_on && !can_be_run(name))
        child_becomes(False);
    return hands_on;
}
