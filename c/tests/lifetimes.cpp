// Passes go back, values end with their container, and threads keep little of containers that have ended.
#include "lockfree.hpp"
#include "check.hpp"

#include <cstddef>
#include <memory>
#include <new>
#include <thread>
#include <vector>

namespace {

/// What this thread has taken of operator new, and what all threads have not given back.
thread_local std::size_t taken_here = 0;
std::atomic<long> blocks{0};

void *taken(std::size_t size, std::size_t align = alignof(std::max_align_t)) {
    taken_here += size;
    ++blocks;
    if (void *const at = std::aligned_alloc(align, (size + align - 1) / align * align)) return at;
    std::abort();
}
void given(void *at) noexcept {
    if (at) --blocks;
    std::free(at);
}

}  // namespace

void *operator new(std::size_t size) { return taken(size); }
void *operator new(std::size_t size, std::align_val_t align) { return taken(size, static_cast<std::size_t>(align)); }
void operator delete(void *at) noexcept { given(at); }
void operator delete(void *at, std::size_t) noexcept { given(at); }
void operator delete(void *at, std::align_val_t) noexcept { given(at); }
void operator delete(void *at, std::size_t, std::align_val_t) noexcept { given(at); }

namespace {

template <class Container> void values_of_passes_end() {
    {
        Container container(8);
        auto pass = container.split();
        for (long i = 0; i < 5; ++i) CHECK(pass.push(counted(i)));
    }
    CHECK(counted::alive == 0);
    auto container = std::make_unique<Container>(8);
    {
        auto pass = container->split();
        for (long i = 0; i < 5; ++i) CHECK(pass.push(counted(i)));
        container.reset();  // ends what is there
        CHECK(counted::alive == 0);
        for (long i = 0; i < 5; ++i) CHECK(pass.push(counted(i)));
        counted out;
        CHECK(pass.pop(out));
    }  // and the last pass what came after
    CHECK(counted::alive == 0);
}

/// Only those passes count that are out at a time.
template <class Container> void passes_go_back() {
    Container container(2);
    for (int i = 0; i < 100000; ++i) {
        auto pass = container.split();
        CHECK(i % 1000 != 0 || pass.push(i));
        int out = -1;
        CHECK(i % 1000 != 0 || (container.pop(out) && out == i));
    }
    std::thread([&] {
        int out = 0;
        CHECK(container.push(3) && container.pop(out) && out == 3);
    }).join();
}

/// The pass of the 300th thread takes as much memory as that of the 20th.
template <class Container> void passes_take_the_same() {
    Container container(2);
    constexpr int threads = 300;
    std::vector<std::size_t> each(threads);
    std::vector<std::thread> all;
    stage steps;
    for (int i = 0; i < threads; ++i) {
        all.emplace_back([&, i] {
            const std::size_t before = taken_here;
            CHECK(container.empty());
            each[static_cast<std::size_t>(i)] = taken_here - before;
            steps.reach(i + 1);
            steps.await(threads);
        });
        steps.await(i + 1);
    }
    for (auto &thread : all) thread.join();
    CHECK(each[299] <= 2 * each[20]);
}

/// A thread forgets the containers that it ends, and those that others have ended as it calls more.
template <class Container> void caches_forget() {
    {
        Container container(2);  // the thread has its table now
        CHECK(container.push(1));
    }
    const long before = blocks;
    {
        std::vector<std::unique_ptr<Container>> many;
        for (int i = 0; i < 500; ++i) {
            many.push_back(std::make_unique<Container>(2));
            CHECK(many.back()->push(i));
        }
    }
    CHECK(blocks <= before + 20);
    stage steps;
    std::unique_ptr<Container> shared;
    std::thread calls([&] {
        for (int i = 1; i <= 500; ++i) {
            steps.await(2 * i - 1);
            CHECK(shared->push(i));
            steps.reach(2 * i);
        }
        CHECK(blocks <= before + 120);
    });
    for (int i = 1; i <= 500; ++i) {
        shared = std::make_unique<Container>(2);
        steps.reach(2 * i - 1);
        steps.await(2 * i);
    }
    calls.join();
}

template <template <class, class...> class Container> void all() {
    values_of_passes_end<Container<counted, lockfree::fixed_sized<true>>>();
    passes_go_back<Container<int, lockfree::fixed_sized<true>>>();
    caches_forget<Container<int, lockfree::fixed_sized<true>>>();
}

}  // namespace

int main() {
    all<lockfree::queue>();
    all<lockfree::stack>();
    all<lockfree::ring_queue>();
    passes_take_the_same<lockfree::bounded_queue<int>>();
    passes_take_the_same<lockfree::bounded_stack<int>>();
    std::puts("passed");
}
