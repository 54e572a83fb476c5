// LLVM's header, which ends the program with a text where it would throw.
#include "../../aborts.h"
#pragma push_macro("abort")
#undef abort
#define abort() predator_ends("std::bad_function_call")
#include_next <__functional/function.h>
#pragma pop_macro("abort")
