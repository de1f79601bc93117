// Into what a pop may put a value, what a function of consume_one may take, and what a type need not have.
#include "lockfree.hpp"
#include "check.hpp"

#include <memory>
#include <optional>
#include <string>
#include <utility>

namespace {

static_assert(sizeof(lockfree_answer) <= 16, "an answer comes back in two registers");

/// Has neither a default constructor nor a copy.
struct only_moved {
    std::unique_ptr<int> inner;
    explicit only_moved(int n) : inner(std::make_unique<int>(n)) {}
};

struct alignas(128) wide {
    int number;
};

template <template <class, class...> class Container> void all() {
    Container<int *, lockfree::capacity<4>> pointers;
    std::shared_ptr<int> owner;
    CHECK(pointers.push(new int(5)) && pointers.pop(owner) && *owner == 5);
    std::unique_ptr<int> other;
    CHECK(pointers.push(new int(6)) && pointers.pop(other) && *other == 6);
    Container<const char *, lockfree::capacity<4>> words;
    std::string text;
    CHECK(words.push("abc") && words.pop(text) && text == "abc");
    Container<int, lockfree::capacity<4>> numbers;
    std::optional<long> wider;
    double real = 0;
    CHECK(numbers.push(7) && numbers.pop(wider) && wider == 7 && numbers.push(8) && numbers.pop(real) && real > 7.5);

    Container<only_moved, lockfree::capacity<4>> moved;
    CHECK(moved.push(only_moved(1)) && moved.consume_one([](only_moved value) { CHECK(*value.inner == 1); }));
    CHECK(moved.emplace(2) && moved.consume_one([](only_moved &&value) { CHECK(*value.inner == 2); }));
    CHECK(moved.emplace(3) && moved.consume_one([](const only_moved &value) { CHECK(*value.inner == 3); }));
    CHECK(moved.emplace(4) && moved.pop().value().inner && !moved.pop(lockfree::uses_optional));
    Container<std::string, lockfree::capacity<2>> texts;
    texts.push("kept");
    CHECK(texts.consume_one([&](std::string &value) { text.swap(value); }) && text == "kept");

    Container<wide, lockfree::capacity<40>> aligned;
    for (int i = 0; i < 40; ++i) CHECK(aligned.push(wide{i}));
    CHECK(aligned.consume_all([](wide &value) { CHECK(reinterpret_cast<std::uintptr_t>(&value) % 128 == 0); }) == 40);
    Container<std::unique_ptr<int>, lockfree::capacity<2>> first, second;
    std::unique_ptr<int> empty;
    CHECK(first.push(nullptr) && first.pop(empty) && !empty && second.empty());
}

}  // namespace

int main() {
    all<lockfree::queue>();
    all<lockfree::stack>();
    all<lockfree::ring_queue>();
    std::puts("passed");
}
