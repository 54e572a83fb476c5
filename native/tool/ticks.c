/* The processor's counter of time, as the program reads it. It goes on by the same steps on every
   run, so that who reads it to pass a moment does the same each time; only where a call has waited,
   or has asked for the time, has it passed as much as the real one. */
#include "tool.h"

#define BEGIN (1UL << 32)
#define STEP  1000

static ULong now = BEGIN, real;

void ticks_pass(UInt call)
{
    ULong passed;
    switch (call) {
    case __NR_nanosleep:
    case __NR_clock_nanosleep:
    case __NR_clock_gettime:
    case __NR_gettimeofday:
    case __NR_time:
    case __NR_poll:
    case __NR_ppoll:
    case __NR_select:
    case __NR_pselect6:
    case __NR_epoll_wait:
    case __NR_epoll_pwait:
        real = real ? real : __builtin_ia32_rdtsc();
        passed = BEGIN + __builtin_ia32_rdtsc() - real;
        now = now > passed ? now : passed;
        break;
    default:
        break;
    }
}

static ULong tick(void) { return now += STEP; }

/* The same with the number of a processor, as RDTSCP has it. */
static void tick_of_processor(VexGuestAMD64State *it)
{
    ULong ticks = tick();
    it->guest_RAX = ticks & 0xffffffff;
    it->guest_RDX = ticks >> 32;
    it->guest_RCX = 0;
}

static IRStmt *calling(const IRDirty *old, const HChar *name, void *function)
{
    IRDirty *own = deepCopyIRDirty(old);
    own->cee = mkIRCallee(0, name, VG_(fnptr_to_fnentry)(function));
    return IRStmt_Dirty(own);
}

IRStmt *ticks_instead(IRStmt *it)
{
    const HChar *name = it->tag == Ist_Dirty ? it->Ist.Dirty.details->cee->name : "";
    if (VG_(strcmp)(name, "amd64g_dirtyhelper_RDTSC") == 0)
        return calling(it->Ist.Dirty.details, "tick", tick);
    if (VG_(strcmp)(name, "amd64g_dirtyhelper_RDTSCP") == 0)
        return calling(it->Ist.Dirty.details, "tick_of_processor", tick_of_processor);
    return it;
}
