// How much memory values take that are not small: a container of N values of S bytes, from 1 KiB on, at most
// N * S * 1.3 + 8 KiB, and 4 KiB if N * S is 24 KiB or more, with 2 cells and 1 KiB for each caller; a ring 64 bytes more for
// each pass that it is made for. Linked with -Wl,--wrap=malloc,--wrap=realloc,--wrap=free.
#include "lockfree.hpp"
#include "check.hpp"

#include <cstddef>
#include <malloc.h>
#include <memory>
#include <new>
#include <thread>
#include <vector>

namespace {

std::atomic<std::size_t> taken{0};

void *told(void *at) {
    if (at) taken += malloc_usable_size(at);
    return at;
}

}  // namespace

extern "C" {
void *__real_malloc(std::size_t);
void *__real_realloc(void *, std::size_t);
void __real_free(void *);
void *__wrap_malloc(std::size_t size) { return told(__real_malloc(size)); }
void *__wrap_realloc(void *at, std::size_t size) {
    if (at) taken -= malloc_usable_size(at);
    return told(__real_realloc(at, size));
}
void __wrap_free(void *at) {
    if (at) taken -= malloc_usable_size(at);
    __real_free(at);
}
}

void *operator new(std::size_t size) { return told(__real_malloc(size)); }
void *operator new(std::size_t size, std::align_val_t align) {
    const std::size_t unit = static_cast<std::size_t>(align);
    return told(std::aligned_alloc(unit, (size + unit - 1) / unit * unit));
}
void operator delete(void *at) noexcept { __wrap_free(at); }
void operator delete(void *at, std::size_t) noexcept { __wrap_free(at); }
void operator delete(void *at, std::align_val_t) noexcept { __wrap_free(at); }
void operator delete(void *at, std::size_t, std::align_val_t) noexcept { __wrap_free(at); }

namespace {

template <std::size_t Size> struct value {
    std::unique_ptr<char> no_copy;
    char bytes[Size - sizeof(std::unique_ptr<char>)];
};

/// By itself, and after calls of several threads, which have all called it before one of them ends.
template <class Container, std::size_t Size, class... Limits>
void takes_at_most(std::size_t room, std::size_t passes, Limits... limits) {
    constexpr std::size_t threads = 6;
    const std::size_t before = taken;
    const std::size_t values = room * Size * 13 / 10 + (room * Size < 24 * 1024 ? 8192 : 4096) + 64 * passes;
    const auto container = std::make_unique<Container>(room, limits...);
    CHECK(taken - before <= values);
    CHECK(container->empty());
    CHECK(taken - before <= values + 2 * Size + 1024);
    stage steps;
    std::vector<std::thread> all;
    std::size_t with_threads = 0;
    for (int i = 0; i < static_cast<int>(threads); ++i) {
        all.emplace_back([&, i] {
            for (std::size_t k = 0; k < room; ++k) CHECK(container->emplace());
            CHECK(container->try_emplace() == lockfree::status::full);
            CHECK(container->consume_all([](value<Size> &) {}) == room);
            steps.reach(i + 1);
            steps.await(threads + 1);
        });
        steps.await(i + 1);
    }
    with_threads = taken - before;
    steps.reach(threads + 1);
    for (auto &thread : all) thread.join();
    CHECK(with_threads <= values + (threads + 1) * (2 * Size + 1024));
}

template <std::size_t Size> void all() {
    for (const std::size_t room : {std::size_t{1}, std::size_t{4}, std::size_t{64}}) {
        takes_at_most<lockfree::bounded_queue<value<Size>>, Size>(room, 0);
        takes_at_most<lockfree::bounded_stack<value<Size>>, Size>(room, 0);
        takes_at_most<lockfree::ring_queue<value<Size>>, Size>(room, 256);
        takes_at_most<lockfree::ring_queue<value<Size>>, Size>(room, 8, lockfree::pass_limit{8});
    }
}

}  // namespace

int main() {
    all<1024>();
    all<4096>();
    all<65536>();
    takes_at_most<lockfree::bounded_queue<value<1048576>>, 1048576>(4, 0);
    takes_at_most<lockfree::bounded_stack<value<1048576>>, 1048576>(4, 0);
    std::puts("passed");
}
