// Which calls of an spsc_queue take memory or a lock: the constructor alone takes memory. It is refused at each place, one after
// another: nothing leaks, nothing is half made, and the next call succeeds. Counts operator new and pthread_mutex_lock of this
// program and, by -Wl,--wrap=malloc,--wrap=realloc,--wrap=pthread_mutex_lock, the archive's memory.
#include "lockfree/blocking.hpp"
#include "check.hpp"

#include <array>
#include <cstddef>
#include <memory>
#include <new>
#include <pthread.h>
#include <string>
#include <utility>

namespace {

std::atomic<long> requests{0}, held{0}, locks{0};
long granted = -1;  // so many more requests are granted, and then none; all, while it is negative
bool refuses() { return ++requests, granted >= 0 && granted-- == 0 && ((granted = 0), true); }
void *counts(void *at) { return held += at != nullptr, at; }

}  // namespace

extern "C" {
void *__real_malloc(std::size_t);
void *__real_realloc(void *, std::size_t);
void __real_free(void *);
int __real_pthread_mutex_lock(pthread_mutex_t *);
void *__wrap_malloc(std::size_t size) { return refuses() ? nullptr : counts(__real_malloc(size)); }
void *__wrap_realloc(void *at, std::size_t size) { return refuses() ? nullptr : __real_realloc(at, size); }
void __wrap_free(void *at) {
    held -= at != nullptr;
    __real_free(at);
}
int __wrap_pthread_mutex_lock(pthread_mutex_t *lock) { return ++locks, __real_pthread_mutex_lock(lock); }
}

namespace {

void *asked(std::size_t size, std::size_t unit) noexcept {
    return refuses() ? nullptr : counts(std::aligned_alloc(unit, (size + unit - 1) / unit * unit));
}
void *or_throw(void *at) {
    if (!at) throw std::bad_alloc();
    return at;
}

}  // namespace

void *operator new(std::size_t size) { return or_throw(asked(size, alignof(std::max_align_t))); }
void *operator new(std::size_t size, std::align_val_t align) { return or_throw(asked(size, static_cast<std::size_t>(align))); }
void *operator new(std::size_t size, const std::nothrow_t &) noexcept { return asked(size, alignof(std::max_align_t)); }
void *operator new(std::size_t size, std::align_val_t align, const std::nothrow_t &) noexcept {
    return asked(size, static_cast<std::size_t>(align));
}
void operator delete(void *at) noexcept { __wrap_free(at); }
void operator delete(void *at, std::size_t) noexcept { __wrap_free(at); }
void operator delete(void *at, std::align_val_t) noexcept { __wrap_free(at); }
void operator delete(void *at, std::size_t, std::align_val_t) noexcept { __wrap_free(at); }

namespace {

using lockfree::status;

/// Makes a call with more and more memory, until it says that it was made; returns how often it was not. What was half made has
/// gone each time.
template <class Call> long until_made(Call &&call) {
    const long before = held;
    for (long refusals = 0;; ++refusals) {
        granted = refusals;
        const bool made = call();
        granted = -1;
        CHECK(held == before);
        if (made) return refusals;
    }
}

template <class T> void makers() {
    using queue = lockfree::spsc_queue<T>;
    const long of_constructor = until_made([] {
        try {
            queue made(4);
            granted = -1;
            CHECK(made.emplace() && made.pop());
            return true;
        } catch (const std::bad_alloc &) {
            return false;
        }
    });
    CHECK(of_constructor >= 2);  // the headers' memory, and the archive's
    CHECK(until_made([] {
              const auto made = lockfree::make<queue>(4);
              return made && made->capacity() == 4;
          }) == of_constructor + 1);
    CHECK(until_made([] {
              const auto made = lockfree::make<lockfree::blocking<queue>>(4);
              return made && made->container().capacity() == 4;
          }) == of_constructor + 2);
    CHECK(until_made([] {
              auto [producer, consumer] = lockfree::try_spsc<T>(4);
              CHECK(static_cast<bool>(producer) == static_cast<bool>(consumer));
              if (!producer) CHECK(producer.try_emplace() == status::closed && consumer.is_closed() && !consumer.try_pop());
              return static_cast<bool>(producer);
          }) == of_constructor);
    CHECK(until_made([] {
              try {
                  return lockfree::spsc<T>(4).producer.capacity() == 4;
              } catch (const std::bad_alloc &) {
                  return false;
              }
          }) == of_constructor);
}

/// No call takes memory or a lock.
template <class T> void calls() {
    lockfree::spsc_queue<T, lockfree::capacity<40>> queue;
    auto [producer, consumer] = lockfree::spsc<T>(2);
    const auto some = std::make_unique<std::array<T, 50>>();
    T *const values = some->data();
    const long before = requests, locked = locks;
    for (int round = 0; round < 10; ++round) {
        CHECK(queue.push(std::move(values[0])) && queue.emplace() && queue.push(values + 1, 50) == 38);
        CHECK(!queue.push(std::move(values[2])) && queue.push_wait(std::move(values[3]), [] { return true; }) == status::stopped);
        CHECK(queue.try_front() && queue.full() && !queue.empty() && queue.pop(values[0]) && queue.consume_one([](T &) {}));
        CHECK(queue.push(values, values + 1) == values + 1 && queue.pop(values, 9) == 9 && queue.consume_all([](T &) {}) == 30);
        CHECK(!queue.pop() && queue.pop_wait(values[0], [] { return true; }) == status::stopped && queue.push(values, 3) == 3);
        queue.reset();
        CHECK(producer.push(std::move(values[4])) && consumer.pop_wait(values[4]) == status::ok);
        auto other = std::move(producer);
        producer = std::move(other);
    }
    CHECK(requests == before && locks == locked);
}

struct large {
    std::array<long, 100> numbers;
};

}  // namespace

int main() {
    makers<long>();
    makers<std::string>();
    makers<large>();
    calls<long>();
    calls<std::uint64_t>();
    calls<float>();
    calls<large>();
    calls<std::string>();  // (empty ones)
    std::puts("passed");
}
