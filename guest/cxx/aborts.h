// What the library's headers call in place of a throw: the program ends with a line on standard error and exit code 134, as `abort` has
// it. A header of include/ defines `abort()` around LLVM's header of the same name, behind all that this one includes.
#ifndef PREDATOR_CXX_ABORTS_H
#define PREDATOR_CXX_ABORTS_H

#include <__config>
#include <cstdlib>
#include <exception>
#include <iosfwd>
#include <new>

[[noreturn]] void predator_ends(const char *why, const char *more = "");

_LIBCPP_BEGIN_NAMESPACE_STD
using ::predator_ends;
_LIBCPP_END_NAMESPACE_STD

#endif
