// Which calls take memory: the constructor, `split` and a thread's first call of a container. No other push or pop, whatever the
// type, accepted or refused. Counts operator new of this program and, by -Wl,--wrap=malloc,--wrap=realloc, the archive's.
#include "lockfree.hpp"
#include "check.hpp"

#include <array>
#include <cstddef>
#include <memory>
#include <new>
#include <string>
#include <thread>
#include <utility>
#include <vector>

namespace {

std::atomic<long> requests{0};

}  // namespace

extern "C" {
void *__real_malloc(std::size_t);
void *__real_realloc(void *, std::size_t);
void *__wrap_malloc(std::size_t size) { return ++requests, __real_malloc(size); }
void *__wrap_realloc(void *at, std::size_t size) { return ++requests, __real_realloc(at, size); }
}

void *operator new(std::size_t size) {
    ++requests;
    if (void *const at = __real_malloc(size)) return at;
    std::abort();
}
void *operator new(std::size_t size, std::align_val_t align) {
    ++requests;
    const std::size_t unit = static_cast<std::size_t>(align);
    if (void *const at = std::aligned_alloc(unit, (size + unit - 1) / unit * unit)) return at;
    std::abort();
}
void operator delete(void *at) noexcept { std::free(at); }
void operator delete(void *at, std::size_t) noexcept { std::free(at); }
void operator delete(void *at, std::align_val_t) noexcept { std::free(at); }
void operator delete(void *at, std::size_t, std::align_val_t) noexcept { std::free(at); }

namespace {

struct sixteen {
    std::uint64_t words[2];
};
struct sixty_four {
    std::uint64_t words[8];
};

/// Pushes values of `made` until it is full, has some refused, and takes them, each in all ways.
template <class T, class Calls> void calls_of(Calls &by, std::vector<T> &made, T &out) {
    const std::size_t room = by.capacity();
    for (int round = 0; round < 3; ++round) {
        for (std::size_t i = 0; i < room; ++i) CHECK(by.push(std::move(made[i])));
        for (std::size_t i = room; i < made.size(); ++i) CHECK(!by.push(std::move(made[i])));
        for (std::size_t i = room; i < made.size(); ++i) CHECK(by.try_push(std::move(made[i])) == lockfree::status::full);
        CHECK(!by.empty());
        for (std::size_t i = 0; i < room; i += 2) CHECK(by.pop(made[i]) && by.consume_one([&](T &value) { made[i + 1] = std::move(value); }));
        CHECK(!by.pop(out) && by.try_pop(out) == lockfree::status::empty && by.empty());
        for (std::size_t i = 0; i < made.size(); ++i) CHECK(by.push(std::move(made[i])) && by.pop(made[i]));
    }
}

/// `values` are more than fit: none of them is made or copied while requests are counted.
template <class Container, class T = typename Container::value_type> void calls_take_none(std::vector<T> values) {
    const auto container = std::make_unique<Container>(16);
    T out{};
    const auto counts = [&](auto &by) {
        CHECK(by.empty());  // the thread's first call, and this takes memory
        const long before = requests;
        calls_of(by, values, out);
        CHECK(requests == before);
    };
    counts(*container);
    auto pass = container->split();
    counts(pass);
    std::thread([&] { counts(*container); }).join();
    // and between threads, of which one pushes and another pops
    for (int round = 0; round < 20; ++round) {
        for (const bool pushes : {true, false})
            std::thread([&] {
                CHECK(container->empty() == pushes);
                const long before = requests;
                for (std::size_t i = 0; i < 16; ++i) CHECK(pushes ? container->push(std::move(values[i])) : container->pop(values[i]));
                CHECK(requests == before);
            }).join();
    }
}

template <class T> std::vector<T> some(T (*make)()) {
    std::vector<T> all;
    for (int i = 0; i < 40; ++i) all.push_back(make());
    return all;
}

template <template <class, class...> class Container> void all() {
    using fixed = lockfree::fixed_sized<true>;
    calls_take_none<Container<std::uint64_t, fixed>>(some<std::uint64_t>([] { return std::uint64_t{5}; }));
    calls_take_none<Container<sixteen, fixed>>(some<sixteen>([] { return sixteen{}; }));
    calls_take_none<Container<sixty_four, fixed>>(some<sixty_four>([] { return sixty_four{}; }));
    calls_take_none<Container<std::array<char, 500>, fixed>>(some<std::array<char, 500>>([] { return std::array<char, 500>{}; }));
    calls_take_none<Container<std::string, fixed>>(some<std::string>([] { return std::string(40, 'x'); }));
    calls_take_none<Container<std::unique_ptr<int>, fixed>>(some<std::unique_ptr<int>>([] { return std::make_unique<int>(3); }));
}

}  // namespace

int main() {
    all<lockfree::queue>();
    all<lockfree::stack>();
    all<lockfree::ring_queue>();
    std::puts("passed");
}
