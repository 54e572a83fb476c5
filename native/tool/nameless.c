/* What lies where no object is: the stacks of threads, and files that are mapped and are no code.
 * The address map has a row for each. */
#include "parts.h"

/* What the C library keeps of a thread at the thread's own pointer, which is the top of its stack.
 */
#define THREAD_BYTES 2304

static Addr up(Addr addr) { return (addr + PAGE - 1) & ~(PAGE - 1); }

void trace_stack(UInt hart, Addr from, Addr to)
{
    static struct {
        Addr from, to;
    } written[MOST_HARTS];
    if (hart >= MOST_HARTS || from >= to || (written[hart].from == from && written[hart].to == to))
        return;
    written[hart].from = from;
    written[hart].to = to;
    table_text("stack 0x%lx 0x%lx %u\n", from, to, hart);
}

void trace_thread(UInt hart, Addr stack, Addr own)
{
    Addr from, to, top;
    const HChar *path;
    if (!mapping_of(stack, True, &from, &to, &path) || path)
        return;
    top = up(stack <= own && own < to ? own + THREAD_BYTES : stack);
    trace_stack(hart, from, top < to ? top : to);
}

#ifndef PREDATOR_RUNTIME
void stack_begins(ThreadId tid)
{
    ULong own = 0;
    Addr end = VG_(thread_get_stack_max)(tid) + 1;
    VG_(get_shadow_regs_area)
    (tid, (UChar *)&own, 0, offsetof(VexGuestAMD64State, guest_FS_CONST), sizeof own);
    if (tid == 1) /* (valgrind knows how far it may grow) */
        trace_stack(0, end - VG_(thread_get_stack_size)(tid), end);
    else
        trace_thread(tid - 1, VG_(get_SP)(tid), own);
}
#endif

static OSet *files; /* where the mappings begin that the table has */

static const HChar *name_in(const HChar *path)
{
    const HChar *slash = VG_(strrchr)(path, '/');
    return slash ? slash + 1 : path;
}

void tell_file(Addr addr)
{
    Addr from, to;
    const HChar *path;
    UInt it;
    if (!mapping_of(addr, False, &from, &to, &path) || !path || path[0] == '[' ||
        VG_(OSetWord_Contains)(files, from))
        return;
    VG_(OSetWord_Insert)(files, from);
    for (it = 0; it < library_count; it++) /* (the program may have loaded it by another way) */
        if (VG_(strcmp)(name_in(libraries[it].path), name_in(path)) == 0)
            return;
    table_text("file 0x%lx 0x%lx %s\n", from, to, path);
}

void nameless_begin(void)
{
    files = VG_(OSetWord_Create)(VG_(malloc), "predator.files", VG_(free));
}
