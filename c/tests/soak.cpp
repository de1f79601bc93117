// Calls for long: containers are made and ended, threads come and go, values of all sizes pass, and each round leaves as much
// memory taken as the first. 12 million calls: as many as a program makes in an hour at 3,000 a second. Linked with
// -Wl,--wrap=malloc,--wrap=realloc,--wrap=free.
#include "lockfree.hpp"
#include "check.hpp"

#include <array>
#include <cstddef>
#include <memory>
#include <new>
#include <string>
#include <thread>
#include <vector>

namespace {

std::atomic<long> blocks{0};

void *told(void *at) {
    if (at) ++blocks;
    return at;
}

}  // namespace

extern "C" {
void *__real_malloc(std::size_t);
void *__real_realloc(void *, std::size_t);
void __real_free(void *);
void *__wrap_malloc(std::size_t size) { return told(__real_malloc(size)); }
void *__wrap_realloc(void *at, std::size_t size) {
    void *const moved = __real_realloc(at, size);
    return at ? moved : told(moved);
}
void __wrap_free(void *at) {
    if (at) --blocks;
    __real_free(at);
}
}

void *operator new(std::size_t size) { return told(__real_malloc(size)); }
void *operator new(std::size_t size, std::align_val_t align) {
    const std::size_t unit = static_cast<std::size_t>(align);
    return told(std::aligned_alloc(unit, (size + unit - 1) / unit * unit));
}
void operator delete(void *at) noexcept { __wrap_free(at); }
void operator delete(void *at, std::size_t) noexcept { __wrap_free(at); }
void operator delete(void *at, std::align_val_t) noexcept { __wrap_free(at); }
void operator delete(void *at, std::size_t, std::align_val_t) noexcept { __wrap_free(at); }

namespace {

constexpr long rounds = 20;
constexpr int sides = 3;

long number_of(long value) { return value; }
long number_of(const std::string &value) { return std::stol(value); }
using large = std::array<long, 200>;
long number_of(const large &value) { return value[7]; }

void make(long n, long &to) { to = n; }
void make(long n, std::string &to) { to = std::to_string(n); }
void make(long n, large &to) { to[7] = n; }

/// Threads push numbers, half of them by passes; others pop them; each comes once, in sum.
template <class Container> void round(std::size_t room, long each) {
    using value = typename Container::value_type;
    const auto container = std::make_unique<Container>(room);
    std::atomic<long> sum{0};
    std::vector<std::thread> producers, consumers;
    for (int side = 0; side < sides; ++side) {
        producers.emplace_back([&, side] {
            auto pass = container->split();
            value one{};
            for (long i = side * each; i < (side + 1) * each; ++i) {
                make(i, one);
                CHECK((i % 2 ? pass.push_wait(one) : container->push_wait(one)) == lockfree::status::ok);
            }
        });
        consumers.emplace_back([&] {
            long mine = 0;
            value one{};
            while (container->pop_wait(one) == lockfree::status::ok) mine += number_of(one);
            sum += mine;
        });
    }
    for (auto &thread : producers) thread.join();
    CHECK(container->close());
    for (auto &thread : consumers) thread.join();
    CHECK(sum == sides * each * (sides * each - 1) / 2);
}

template <template <class, class...> class Container> void rounds_of(std::size_t room) {
    using fixed = lockfree::fixed_sized<true>;
    round<Container<long, fixed>>(room, 25000);
    round<Container<std::string, fixed>>(room, 5000);
    round<Container<large, fixed>>(room, 2000);
    for (int i = 0; i < 200; ++i) {  // and many that live shortly
        Container<std::string, fixed> brief(4);
        CHECK(brief.push("a") && brief.push("b") && brief.pop());
    }
}

}  // namespace

int main() {
    long after_first = 0;
    for (long i = 0; i < rounds; ++i) {
        rounds_of<lockfree::queue>(4096);
        rounds_of<lockfree::stack>(4096);
        rounds_of<lockfree::ring_queue>(4096);
        if (i == 0) after_first = blocks;
        CHECK(blocks == after_first);
    }
    std::puts("passed");
}
