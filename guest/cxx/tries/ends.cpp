// What would be thrown, by the word of the call.
#include <any>
#include <functional>
#include <future>
#include <memory>
#include <optional>
#include <string>
#include <thread>
#include <typeinfo>
#include <variant>
#include <vector>

struct Shared : std::enable_shared_from_this<Shared> {
};
struct Base {
    virtual ~Base() = default;
};
struct Derived : Base {
};

int main(int, char **words)
{
    std::vector<int> none;
    std::promise<int> promise;
    Shared alone;
    std::variant<int, long> either = 1;
    switch (words[1][0]) {
    case '0':
        return none.at(3);
    case '1':
        return std::optional<int>().value();
    case '2':
        return std::get<long>(either);
    case '3':
        std::function<void()>()();
        return 0;
    case '4':
        promise.set_value(1);
        promise.set_value(2);
        return 0;
    case '5':
        alone.shared_from_this();
        return 0;
    case '6':
        return std::stoi("x");
    case '7':
        none.reserve(0xffffffff);
        return 0;
    case '8':
        return std::any_cast<int>(std::any());
    case '9':
        return std::string().at(2);
    case 'a': {
        std::thread left([] {});
        return 0;
    }
    case 'b': {
        Base base;
        return &dynamic_cast<Derived &>(base) != nullptr;
    }
    case 'c': {
        Base *volatile nothing = nullptr;
        return typeid(*nothing) == typeid(Base);
    }
    }
    return 1;
}
