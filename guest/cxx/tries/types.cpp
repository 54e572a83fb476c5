// Type information: casts up, down and across, and the types of objects. Built with -frtti.
#include <cstdio>
#include <exception>
#include <functional>
#include <memory>
#include <stdexcept>
#include <string>
#include <typeindex>
#include <typeinfo>
#include <unordered_map>

struct Root {
    virtual ~Root() = default;
};
struct Left : virtual Root {
    int left = 1;
};
struct Right : virtual Root {
    int right = 2;
};
struct Both : Left, Right {
    int both = 3;
};
struct Other {
    virtual ~Other() = default;
    int other = 4;
};
struct Mixed : Both, Other {
    int mixed = 5;
};
struct Hidden : private Other, public Root {
    Other *own() { return this; }
};
struct First : Root {};
struct Second : Root {};
struct Twice : First, Second {};
struct Single : Other {};
struct Deep : Single {
    int deep = 6;
};

template <typename To, typename From> static void show(const char *name, From *from)
{
    To *to = dynamic_cast<To *>(from);
    std::printf("%s %d %d\n", name, to != nullptr, to && dynamic_cast<void *>(to) == dynamic_cast<void *>(from));
}

int main()
{
    Mixed mixed;
    Hidden hidden;
    Twice twice;
    Deep deep;
    Other other;
    Root *root = static_cast<Left *>(&mixed);
    show<Mixed>("down through a virtual base", root);
    show<Right>("down to one of two", root);
    show<Other>("across", root);
    show<Both>("across and up", static_cast<Other *>(&mixed));
    show<Left>("not there", &other);
    show<Deep>("down a line", static_cast<Other *>(&deep));
    show<Single>("half way down", static_cast<Other *>(&deep));
    show<Hidden>("from a private base", hidden.own());
    show<Root>("across from a private base", hidden.own());
    show<Other>("to a private base", static_cast<Root *>(&hidden));
    show<First>("to one of two of a kind", static_cast<Root *>(static_cast<First *>(&twice)));
    show<Second>("across to the other of a kind", static_cast<Root *>(static_cast<First *>(&twice)));
    show<Twice>("down from one of two of a kind", static_cast<Root *>(static_cast<Second *>(&twice)));
    std::printf("%d\n", dynamic_cast<Right &>(*root).right);
    std::printf("%s %s\n", typeid(*root).name(), typeid(root).name());
    std::printf("%d %d %d\n", typeid(int) == typeid(const int), typeid(int) == typeid(long), typeid(other) == typeid(Other));
    std::printf("%s %s %s %s\n", typeid(char *).name(), typeid(int[3]).name(), typeid(&Both::both).name(), typeid(show<Root, Other>).name());
    std::unordered_map<std::type_index, std::string> names{{typeid(int), "int"}, {typeid(Both), "Both"}};
    std::printf("%s %zu\n", names[typeid(Both)].c_str(), names.count(typeid(Left)));
    std::logic_error error("text");
    std::exception *base = &error;
    std::printf("%d %d\n", dynamic_cast<std::logic_error *>(base) != nullptr, dynamic_cast<std::runtime_error *>(base) != nullptr);
    std::function<int()> seven = [] { return 7; };
    std::printf("%d\n", seven.target_type() != typeid(void));
    auto shared = std::make_shared<Deep>();
    std::shared_ptr<Other> held = shared;
    std::printf("%d %d\n", std::dynamic_pointer_cast<Deep>(held)->deep, std::dynamic_pointer_cast<Left>(held) == nullptr);
}
