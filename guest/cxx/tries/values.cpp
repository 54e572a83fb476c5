// Strings, owners, functions, variants, spans, numbers drawn at random, time.
#include <any>
#include <charconv>
#include <chrono>
#include <cstdio>
#include <functional>
#include <memory>
#include <new>
#include <optional>
#include <random>
#include <span>
#include <string>
#include <string_view>
#include <tuple>
#include <variant>
#include <vector>

struct Base {
    virtual ~Base() { std::printf("base goes\n"); }
    virtual int number() const { return 1; }
};
struct Derived : Base, std::enable_shared_from_this<Derived> {
    ~Derived() override { std::printf("derived goes\n"); }
    int number() const override { return 2; }
};

static int total(std::span<const int> numbers)
{
    int all = 0;
    for (int number : numbers)
        all += number;
    return all;
}

int main()
{
    std::string text = "a text that is too long for the small form";
    text.replace(2, 4, "string");
    text += std::to_string(-42) + std::to_string(7u) + std::to_string(1ll << 40) + std::to_string(0.5);
    std::printf("%s %zu\n", text.c_str(), text.find("small"));
    std::printf("%d %ld %llu %.2f\n", std::stoi("0x1f", nullptr, 16), std::stol("-12"), std::stoull("9999999999"), std::stod("2.25x"));
    std::string_view view = text;
    std::printf("%d %.*s\n", view.substr(2, 6) == "string", 6, view.substr(2).data());
    char digits[12];
    auto end = std::to_chars(digits, digits + sizeof digits, 12345).ptr;
    int parsed = 0;
    std::from_chars(digits, end, parsed);
    std::printf("%.*s %d\n", (int)(end - digits), digits, parsed);
    {
        std::shared_ptr<Base> one = std::make_shared<Derived>();
        std::weak_ptr<Base> weak = one;
        std::shared_ptr<Base> two = weak.lock();
        std::unique_ptr<Base> own = std::make_unique<Base>();
        std::printf("%ld %d %d\n", one.use_count(), two->number(), own->number());
        one.reset();
        two.reset();
        std::printf("%d\n", weak.expired());
    }
    std::function<int(int)> twice = [](int x) { return 2 * x; };
    std::function<int()> bound = std::bind(twice, 21);
    std::printf("%d %d\n", bound(), static_cast<bool>(std::function<void()>()));
    std::optional<int> none, some = 4;
    std::variant<int, std::string> either = "text";
    std::printf("%d %d %zu %zu\n", none.value_or(9), *some, either.index(), std::get<std::string>(either).size());
    std::printf("%d\n", std::visit([](auto &it) { return (int)sizeof it > 0; }, either));
    std::vector<int> numbers{1, 2, 3};
    std::printf("%d\n", total(numbers) + total(std::span(numbers).first(2)));
    auto [a, b] = std::tuple(1, 'b');
    std::printf("%d %c\n", a, b);
    std::mt19937 engine(7);
    std::mt19937_64 wide(7);
    std::printf("%lu %llu\n", (unsigned long)engine(), (unsigned long long)wide());
    auto begin = std::chrono::steady_clock::now();
    auto later = std::chrono::steady_clock::now();
    std::printf("%d\n", later >= begin && std::chrono::system_clock::now().time_since_epoch().count() > 0);
    int *block = new (std::nothrow) int(5);
    std::printf("%d\n", *block);
    delete block;
    std::any thing = 3;
    std::printf("%d\n", thing.has_value());
}
