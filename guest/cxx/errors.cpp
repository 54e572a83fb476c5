// Errors of the C++ library. Nothing is thrown: what would be, ends the program with its text. The classes are there, since a program may
// hold errors as values.
#include <cerrno>
#include <cstring>
#include <functional>
#include <future>
#include <optional>
#include <system_error>
#include <typeinfo>
#include <variant>

#include "aborts.h"
#include "../predator.h"

void predator_ends(const char *why, const char *more)
{
    for (const char *text : {why, more, "\n"})
        predator_write(2, text, std::strlen(text));
    predator_exit_group(134);
    __builtin_unreachable();
}

namespace std {

#define ERROR_KIND(name) name::~name() noexcept {}
#define ERROR_CLASS(name, text)                                                                                                          \
    ERROR_KIND(name)                                                                                                                     \
    const char *name::what() const noexcept { return text; }
#define ERROR_WITHOUT_TEXT(name, text)                                                                                                   \
    ERROR_CLASS(name, text)                                                                                                              \
    name::name() noexcept {}
#define ERROR_WITH_TEXT(name)                                                                                                            \
    ERROR_CLASS(name, __imp_.c_str())                                                                                                    \
    name::name(const string &text) : __imp_(text.c_str()) {}                                                                             \
    name::name(const char *text) : __imp_(text) {}                                                                                       \
    name::name(const name &other) noexcept = default;                                                                                    \
    name &name::operator=(const name &other) noexcept = default;

ERROR_CLASS(exception, "std::exception")
ERROR_WITHOUT_TEXT(bad_alloc, "std::bad_alloc")
ERROR_WITHOUT_TEXT(bad_array_new_length, "bad_array_new_length")
ERROR_WITHOUT_TEXT(bad_cast, "std::bad_cast")
ERROR_WITHOUT_TEXT(bad_typeid, "std::bad_typeid")
ERROR_CLASS(bad_optional_access, "bad_optional_access")
const char *bad_variant_access::what() const noexcept { return "bad_variant_access"; }
ERROR_WITH_TEXT(logic_error)
ERROR_WITH_TEXT(runtime_error)
ERROR_KIND(domain_error)
ERROR_KIND(invalid_argument)
ERROR_KIND(length_error)
ERROR_KIND(out_of_range)
ERROR_KIND(range_error)
ERROR_KIND(overflow_error)
ERROR_KIND(underflow_error)

void terminate() noexcept { predator_ends("terminate was called"); }
int uncaught_exceptions() noexcept { return 0; }
bool uncaught_exception() noexcept { return false; }
exception_ptr::exception_ptr(const exception_ptr &) noexcept = default;
exception_ptr &exception_ptr::operator=(const exception_ptr &) noexcept = default;
exception_ptr::~exception_ptr() noexcept {}
exception_ptr current_exception() noexcept { return nullptr; }
void rethrow_exception(exception_ptr) { predator_ends("rethrow_exception: there are no exceptions"); }

const nothrow_t nothrow{};
void __throw_bad_alloc() { predator_ends("std::bad_alloc"); }
static new_handler handler;
new_handler set_new_handler(new_handler next) noexcept { return exchange(handler, next); }
new_handler get_new_handler() noexcept { return handler; }

}

_LIBCPP_BEGIN_NAMESPACE_STD

// (a text that an error keeps, whoever made it)
__libcpp_refstring::__libcpp_refstring(const char *text) : __imp_(strdup(text)) {}
__libcpp_refstring::__libcpp_refstring(const __libcpp_refstring &other) noexcept : __imp_(strdup(other.__imp_)) {}
__libcpp_refstring::~__libcpp_refstring() { free(const_cast<char *>(__imp_)); }
__libcpp_refstring &__libcpp_refstring::operator=(const __libcpp_refstring &other) noexcept
{
    __libcpp_refstring copy(other);
    swap(__imp_, copy.__imp_);
    return *this;
}

ERROR_CLASS(bad_weak_ptr, "bad_weak_ptr")
ERROR_KIND(future_error)
future_error::future_error(error_code code) : logic_error(code.message()), __ec_(code) {}

void __throw_runtime_error(const char *text) { predator_ends(text); }
// (what threads and locks fail with: `strerror` would bring the texts of all errors into each program)
static const struct {
    int error;
    const char *text;
} lock_errors[] = {
    {EPERM, ": Operation not permitted"}, {EAGAIN, ": Resource temporarily unavailable"}, {ENOMEM, ": Cannot allocate memory"},
    {EBUSY, ": Device or resource busy"}, {EINVAL, ": Invalid argument"},                 {EDEADLK, ": Resource deadlock avoided"},
};
void __throw_system_error(int error, const char *text)
{
    for (auto &it : lock_errors)
        if (it.error == error)
            predator_ends(text, it.text);
    predator_ends(text);
}

// ---- Error codes

ERROR_KIND(error_category)
error_condition error_category::default_error_condition(int code) const noexcept { return {code, *this}; }
bool error_category::equivalent(int code, const error_condition &other) const noexcept { return default_error_condition(code) == other; }
bool error_category::equivalent(const error_code &code, int other) const noexcept { return code == error_code(other, *this); }
string error_code::message() const { return category().message(value()); }
string error_condition::message() const { return category().message(value()); }

namespace {

struct Category : error_category {
    const char *own_name;
    const char *(*text_of)(int);
    constexpr Category(const char *name, const char *(*text_of)(int)) : own_name(name), text_of(text_of) {}
    const char *name() const noexcept override { return own_name; }
    string message(int code) const override { return text_of(code); }
};

const char *errno_text(int code) { return strerror(code); }

// (by the numbers of `future_errc`)
const char *future_text(int code)
{
    static const char *const texts[] = {"unknown error of a future", "the future was retrieved before", "the promise has a value already",
                                        "there is no state: the promise or future was moved from", "the promise ended without a value"};
    return texts[code > 0 && code <= static_cast<int>(future_errc::broken_promise) ? code : 0];
}

}

#define CATEGORY(name, text_of)                                                                                                          \
    const error_category &name##_category() noexcept                                                                                     \
    {                                                                                                                                    \
        static const Category category(#name, text_of);                                                                                  \
        return category;                                                                                                                 \
    }

CATEGORY(generic, errno_text)
CATEGORY(system, errno_text)
CATEGORY(future, future_text)

ERROR_KIND(system_error)
string system_error::__init(const error_code &code, string text)
{
    return code ? (text.empty() ? code.message() : text + ": " + code.message()) : text;
}
system_error::system_error(error_code code, const string &text) : runtime_error(__init(code, text)), __ec_(code) {}
system_error::system_error(error_code code, const char *text) : system_error(code, string(text)) {}
system_error::system_error(error_code code) : system_error(code, string()) {}
system_error::system_error(int error, const error_category &of, const string &text) : system_error(error_code(error, of), text) {}
system_error::system_error(int error, const error_category &of, const char *text) : system_error(error_code(error, of), text) {}
system_error::system_error(int error, const error_category &of) : system_error(error_code(error, of)) {}

_LIBCPP_END_NAMESPACE_STD
