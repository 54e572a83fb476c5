// Type information (RTTI) for programs that are compiled with -frtti, by the Itanium C++ ABI, sections 2.9.5 and 2.9.7: the classes
// whose objects describe types, and dynamic_cast. The compiler writes the objects itself, in this layout.
#include <cstddef>
#include <typeinfo>

#include "aborts.h"

std::type_info::~type_info() {}

namespace {

// The one object of a kind that a walk over all bases of an object finds, and whether some way to it is public.
struct Found {
    const char *object = nullptr;
    bool is_ambiguous = false, is_public = false;

    void add(const char *other, bool is_public_way)
    {
        is_ambiguous = is_ambiguous || (object && object != other);
        object = other;
        is_public = is_public || is_public_way;
    }
    const char *accessible() const { return is_public && !is_ambiguous ? object : nullptr; }
};

// A dynamic_cast of the object at `start`, whose class is `from`, to a class `to`, and what a walk over all bases of the whole object
// has found: objects of `to`, and among these the ones with `start` as a base.
struct Cast {
    const std::type_info &from, &to;
    const void *start;
    Found targets, above_start;
    bool is_start_public = false;

    // The C++ standard, [expr.dynamic.cast]: a derived object of the one at `start`, or else an unambiguous public base of the whole.
    const char *result() const
    {
        const char *derived = above_start.accessible();
        return derived || !is_start_public ? derived : targets.accessible();
    }
};

// A way down from the whole object: whether all its steps are public, the last object of the class that is asked for, and whether all
// steps from there are public.
struct Way {
    bool is_public = true;
    const char *target = nullptr;
    bool is_public_from_target = false;

    Way through(bool is_public_base) const { return {is_public && is_public_base, target, is_public_from_target && is_public_base}; }
};

// (before an object's first virtual function stand the places of its virtual bases, where the whole object begins, and its type)
template <class Value> Value beside_functions(const void *object, std::ptrdiff_t offset)
{
    return *reinterpret_cast<const Value *>(*static_cast<const char *const *>(object) + offset);
}

} // namespace

namespace __cxxabiv1 {

#define TYPE_CLASS(name)                                                                                                                 \
    struct name : std::type_info {                                                                                                       \
        ~name() override;                                                                                                                \
    };                                                                                                                                   \
    name::~name() {}

TYPE_CLASS(__fundamental_type_info)
TYPE_CLASS(__array_type_info)
TYPE_CLASS(__function_type_info)
TYPE_CLASS(__enum_type_info)
TYPE_CLASS(__pbase_type_info)
TYPE_CLASS(__pointer_type_info)
TYPE_CLASS(__pointer_to_member_type_info)

// A class without bases. (Where a class's first own function is defined, the compiler writes its table of functions.)
struct __class_type_info : std::type_info {
    virtual void walk_bases(Cast &, const char *, Way) const;

    void walk(Cast &cast, const char *object, Way way) const
    {
        if (*this == cast.to) {
            cast.targets.add(object, way.is_public);
            way = {way.is_public, object, true};
        }
        if (object == cast.start && *this == cast.from) {
            cast.is_start_public = cast.is_start_public || way.is_public;
            if (way.target)
                cast.above_start.add(way.target, way.is_public_from_target);
        }
        walk_bases(cast, object, way);
    }
};
void __class_type_info::walk_bases(Cast &, const char *, Way) const {}

// A class with one base, which is public, not virtual and at its beginning.
struct __si_class_type_info : __class_type_info {
    const __class_type_info *base;
    void walk_bases(Cast &cast, const char *object, Way way) const override;
};
void __si_class_type_info::walk_bases(Cast &cast, const char *object, Way way) const { base->walk(cast, object, way); }

// A base: above the lowest eight bits of `offset_and_flags` its place, or for a virtual one that of its place beside the functions.
struct Base {
    const __class_type_info *type;
    long offset_and_flags;
    enum { IS_VIRTUAL = 1, IS_PUBLIC = 2, OFFSET_SHIFT = 8 };

    const char *in(const char *object) const
    {
        std::ptrdiff_t offset = offset_and_flags >> OFFSET_SHIFT;
        return object + (offset_and_flags & IS_VIRTUAL ? beside_functions<std::ptrdiff_t>(object, offset) : offset);
    }
};

// Any other class with bases.
struct __vmi_class_type_info : __class_type_info {
    unsigned flags, count;
    Base bases[1];
    void walk_bases(Cast &cast, const char *object, Way way) const override;
};
void __vmi_class_type_info::walk_bases(Cast &cast, const char *object, Way way) const
{
    for (const Base *it = bases; it != bases + count; it++)
        it->type->walk(cast, it->in(object), way.through(it->offset_and_flags & Base::IS_PUBLIC));
}

extern "C" void *__dynamic_cast(const void *object, const __class_type_info *from, const __class_type_info *to, std::ptrdiff_t)
{
    std::ptrdiff_t word = sizeof(void *);
    auto *type = beside_functions<const __class_type_info *>(object, -word);
    if (!type)
        predator_ends("dynamic_cast: the object's class was compiled without -frtti");
    Cast cast{*from, *to, object, {}, {}};
    type->walk(cast, static_cast<const char *>(object) + beside_functions<std::ptrdiff_t>(object, -2 * word), {});
    return const_cast<char *>(cast.result());
}

extern "C" void __cxa_bad_cast() { predator_ends("std::bad_cast"); }
extern "C" void __cxa_bad_typeid() { predator_ends("std::bad_typeid"); }

} // namespace __cxxabiv1
