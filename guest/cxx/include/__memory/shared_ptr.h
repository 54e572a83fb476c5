// LLVM's header, which ends the program with a text where it would throw.
#include "../../aborts.h"
#pragma push_macro("abort")
#undef abort
#define abort() predator_ends("bad_weak_ptr")
#include_next <__memory/shared_ptr.h>
#pragma pop_macro("abort")
