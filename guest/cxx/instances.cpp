// The templates that LLVM's headers from version 15 on expect to be instantiated in the library. (Those of version 14 are instantiated
// where they are used: __config_site.)
#include <algorithm>
#include <string>

#if _LIBCPP_VERSION >= 15000
_LIBCPP_BEGIN_NAMESPACE_STD

#define INSTANTIATE(...) template __VA_ARGS__;
_LIBCPP_STRING_V1_EXTERN_TEMPLATE_LIST(INSTANTIATE, char)
template string operator+<char, char_traits<char>, allocator<char>>(const char *, const string &);

#define INSTANTIATE_SORT(type)                                                                                                           \
    template void __sort<__less<type> &, type *>(type *, type *, __less<type> &);                                                        \
    template bool __insertion_sort_incomplete<__less<type> &, type *>(type *, type *, __less<type> &);
#define INSTANTIATE_SORTS(type)                                                                                                          \
    INSTANTIATE_SORT(signed type)                                                                                                        \
    INSTANTIATE_SORT(unsigned type)
INSTANTIATE_SORT(char)
INSTANTIATE_SORTS(char)
INSTANTIATE_SORTS(short)
INSTANTIATE_SORTS(int)
INSTANTIATE_SORTS(long)
INSTANTIATE_SORTS(long long)
INSTANTIATE_SORT(float)
INSTANTIATE_SORT(double)
INSTANTIATE_SORT(long double)
using Long = long double;
template unsigned __sort5<__less<Long> &, Long *>(Long *, Long *, Long *, Long *, Long *, __less<Long> &);

_LIBCPP_END_NAMESPACE_STD
#endif
