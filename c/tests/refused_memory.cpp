// Memory is refused at each place, one after another: nothing leaks, nothing is half done, and the next call goes on.
// Linked with -Wl,--wrap=malloc,--wrap=realloc,--wrap=aligned_alloc, by which the archive's memory is refused, too.
#include "lockfree.hpp"
#include "check.hpp"

#include <cstddef>
#include <new>
#include <string>
#include <thread>
#include <vector>

namespace {

/// So many more requests of this thread are granted, and then none; while it is not negative.
thread_local long granted = -1;
bool refuses() { return granted >= 0 && granted-- == 0 && ((granted = 0), true); }

}  // namespace

extern "C" {
void *__real_malloc(std::size_t);
void *__real_realloc(void *, std::size_t);
void *__wrap_malloc(std::size_t size) { return refuses() ? nullptr : __real_malloc(size); }
void *__wrap_realloc(void *at, std::size_t size) { return refuses() ? nullptr : __real_realloc(at, size); }
}

void *operator new(std::size_t size) {
    if (void *const at = refuses() ? nullptr : __real_malloc(size)) return at;
    throw std::bad_alloc();
}
void *operator new(std::size_t size, std::align_val_t align) {
    const std::size_t unit = static_cast<std::size_t>(align);
    if (void *const at = refuses() ? nullptr : std::aligned_alloc(unit, (size + unit - 1) / unit * unit)) return at;
    throw std::bad_alloc();
}
void operator delete(void *at) noexcept { std::free(at); }
void operator delete(void *at, std::size_t) noexcept { std::free(at); }
void operator delete(void *at, std::align_val_t) noexcept { std::free(at); }
void operator delete(void *at, std::size_t, std::align_val_t) noexcept { std::free(at); }

namespace {

/// Makes a call with more and more memory, each time in a new thread, until it is made. `call` says whether it was.
template <class Call> int until_made(Call &&call) {
    int refusals = 0;
    for (bool made = false; !made; ++refusals)
        std::thread([&] {
            granted = refusals;
            made = call();
            granted = -1;
        }).join();
    return refusals - 1;
}

template <class Container> void constructors() {
    const int refusals = until_made([] {
        try {
            Container container(4);
            granted = -1;
            CHECK(container.push(counted(1)));
            return true;
        } catch (const std::bad_alloc &) {
            return false;
        }
    });
    CHECK(refusals >= 2 && counted::alive == 0);
}

/// The first push of a thread.
template <class Container> void first_pushes() {
    {
        Container container(1000);
        const counted copied(1);
        const int refusals = until_made([&] {
            const long before = counted::alive;
            try {
                CHECK(container.push(copied) && counted::alive == before + 1);
                return true;
            } catch (const std::bad_alloc &) {
                CHECK(counted::alive == before);
                return false;
            }
        });
        CHECK(refusals >= 2 && counted::alive == 2);
        until_made([&] {
            granted += 1;  // for the value's own memory
            counted moved(2);
            try {
                CHECK(container.push(std::move(moved)));
                return true;
            } catch (const std::bad_alloc &) {
                CHECK(*moved.number == 2);
                return false;
            }
        });
        CHECK(counted::alive == 3);
    }
    CHECK(counted::alive == 0);
}

struct in_a_cell {
    std::uint64_t words[2];
};

/// A call that finds no memory costs no pass: what was made for it is the next one's.
template <class Container, class... Limits> void passes_stay(std::size_t passes, Limits... limits) {
    Container container(2, limits...);
    until_made([&] { return container.try_push(in_a_cell{}) != lockfree::status::no_memory; });
    for (int round = 0; round < 20; ++round)
        until_made([&] { return static_cast<bool>(container.try_split()); });
    std::vector<decltype(container.split())> all;
    for (std::size_t i = 0; i < passes; ++i) {
        until_made([&] {
            auto pass = container.try_split();
            if (pass) granted = -1, all.push_back(std::move(pass));
            return all.size() > i;
        });
        CHECK(all.back().try_push(in_a_cell{}) != lockfree::status::no_pass);
    }
}

void ranges() {
    {
        lockfree::stack<counted, lockfree::fixed_sized<true>> stack(200);
        std::vector<counted> values;
        for (long i = 0; i < 150; ++i) values.emplace_back(i);
        CHECK(stack.empty());
        long refusals = 0;
        for (bool made = false; !made; ++refusals) {
            granted = refusals;
            try {
                made = stack.push(values.begin(), values.end()) == values.end();
            } catch (const std::bad_alloc &) {
            }
            granted = -1;
            const std::size_t put = stack.consume_all([](counted &) {});
            CHECK(counted::alive == 150 && (put == 150) == made);
        }
        CHECK(refusals > 150);  // of each value, and more
    }
    CHECK(counted::alive == 0);
}

template <template <class, class...> class Container> void all() {
    constructors<Container<counted, lockfree::fixed_sized<true>>>();
    first_pushes<Container<counted, lockfree::fixed_sized<true>>>();
}

}  // namespace

int main() {
    all<lockfree::queue>();
    all<lockfree::stack>();
    all<lockfree::ring_queue>();
    ranges();
    passes_stay<lockfree::ring_queue<in_a_cell>>(4, lockfree::pass_limit{4});
    passes_stay<lockfree::bounded_queue<in_a_cell>>(100);
    passes_stay<lockfree::bounded_stack<in_a_cell>>(100);
    CHECK(counted::alive == 0);
    std::puts("passed");
}
