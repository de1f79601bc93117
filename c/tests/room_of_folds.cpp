// A stack whose values a consume_all_atomic has in hand has its room again: for what the function pushes, and for others.
#include "lockfree.hpp"
#include "check.hpp"

#include <cstddef>
#include <new>
#include <string>
#include <thread>
#include <vector>

namespace {

/// So many more requests of this thread are granted, and then none; while it is not negative.
thread_local long granted = -1;

}  // namespace

void *operator new(std::size_t size) {
    if (void *const at = std::malloc(size)) return at;
    throw std::bad_alloc();
}
void *operator new[](std::size_t size, const std::nothrow_t &) noexcept { return granted == 0 ? nullptr : std::malloc(size); }
void operator delete(void *at) noexcept { std::free(at); }
void operator delete(void *at, std::size_t) noexcept { std::free(at); }
void operator delete[](void *at) noexcept { std::free(at); }
void operator delete[](void *at, std::size_t) noexcept { std::free(at); }

namespace {

/// Each value goes back as it comes, in both orders, of few values and of many.
template <class T> void pushes_back(std::size_t room, bool reversed) {
    lockfree::bounded_stack<T> stack(room);
    for (std::size_t i = 0; i < room; ++i) CHECK(stack.push(T(static_cast<long>(i))));
    std::size_t back = 0;
    const auto push = [&](T value) { back += stack.push(std::move(value)) ? 1u : 0u; };
    CHECK((reversed ? stack.consume_all_atomic_reversed(push) : stack.consume_all_atomic(push)) == room && back == room);
    CHECK(stack.consume_all([](T &) {}) == room && stack.size() == 0);
}

/// Other threads push meanwhile as many as fit; of values in cells those that find one.
void others_push() {
    lockfree::stack<long, lockfree::capacity<8>> stack;
    for (long i = 0; i < 8; ++i) CHECK(stack.push(i));
    bool first = true;
    CHECK(stack.consume_all_atomic([&](long) {
        if (!std::exchange(first, false)) return;
        std::thread([&] {
            CHECK(stack.size() == 0 && stack.empty());
            for (long i = 0; i < 8; ++i) CHECK(stack.push(10 + i));
            CHECK(stack.try_push(1) == lockfree::status::full && stack.size() == 8 && stack.full());
        }).join();
    }) == 8);
    CHECK(stack.consume_all([](long value) { CHECK(value >= 10); }) == 8);
}

struct large {
    std::uint64_t words[150];
};

/// Nothing takes memory for values beside those that a fold has in hand: a push that finds no cell is full until then.
void cells_in_hand() {
    lockfree::stack<large, lockfree::capacity<8>> stack;
    for (int i = 0; i < 8; ++i) CHECK(stack.push(large{}));
    int seen = 0;
    CHECK(stack.consume_all_atomic([&](large &) {
        if (seen++ == 0) {
            std::size_t pushed = 0;
            while (pushed < 100 && stack.try_push(large{}) == lockfree::status::ok) ++pushed;
            CHECK(pushed <= 8);
            while (stack.pop()) {}
        }
    }) == 8);
    for (int i = 0; i < 8; ++i) CHECK(stack.push(large{}));
    CHECK(stack.try_push(large{}) == lockfree::status::full && stack.consume_all([](large &) {}) == 8);
}

/// If there is no memory for many words each value still comes out once, in its order.
void without_memory() {
    lockfree::bounded_stack<counted> stack(200);
    for (long i = 0; i < 200; ++i) CHECK(stack.push(counted(i)));
    long next = 200;
    granted = 0;
    CHECK(stack.consume_all_atomic([&](counted &value) { CHECK(*value.number == --next); }) == 200 && next == 0);
    granted = -1;
    CHECK(counted::alive == 0 && stack.size() == 0);
    for (long i = 0; i < 200; ++i) CHECK(stack.push(counted(i)));
}

struct text {
    std::string inner;
    explicit text(long n) : inner(std::to_string(n) + std::string(40, 'x')) {}
};

}  // namespace

int main() {
    for (const std::size_t room : {1u, 8u, 64u, 65u, 300u})
        for (const bool reversed : {false, true}) {
            pushes_back<long>(room, reversed);
            pushes_back<text>(room, reversed);
        }
    others_push();
    cells_in_hand();
    without_memory();
    CHECK(counted::alive == 0);
    std::puts("passed");
}
