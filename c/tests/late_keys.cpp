// Calls in the destructor of a key of pthreads, by threads that called before, and by threads whose
// first call it is: each gives its pass back, in the C library's last round by leave(), and no memory
// of the headers stays.
#include "lockfree.hpp"
#include "check.hpp"

#include <climits>
#include <pthread.h>
#include <string>
#include <thread>

/// The C library keeps 32 bytes of its own of each thread that registers a thread_local object so late.
extern "C" const char *__lsan_default_suppressions() { return "leak:__cxa_thread_atexit_impl\n"; }

namespace {

using ring = lockfree::ring_queue<std::string, lockfree::capacity<8>>;

ring *called = nullptr;
pthread_key_t first_key, second_key, last_key;

void call(void *) { CHECK(called->try_push("late") == lockfree::status::ok); }

/// Again in each round that the C library makes.
void call_twice(void *rounds) {
    call(nullptr);
    if (const auto left = reinterpret_cast<std::uintptr_t>(rounds); left > 1)
        CHECK(pthread_setspecific(second_key, reinterpret_cast<void *>(left - 1)) == 0);
}

/// The first call of a thread in the last round, after which no destructor of a key runs.
[[maybe_unused]] void call_in_the_last_round(void *round) {
    const auto next = reinterpret_cast<std::uintptr_t>(round) + 1;
    if (next <= PTHREAD_DESTRUCTOR_ITERATIONS) {
        CHECK(pthread_setspecific(last_key, reinterpret_cast<void *>(next)) == 0);
    } else {
        call(nullptr);
        called->leave();
    }
}

[[maybe_unused]] void threads_leave() {
    std::string out;
    for (int i = 0; i < 20; ++i) {
        std::thread([] { CHECK(pthread_setspecific(last_key, reinterpret_cast<void *>(std::uintptr_t{1})) == 0); }).join();
        CHECK(called->pop(out) && out == "late");
    }
}

void threads_end(bool call_before, int rounds) {
    std::string out;
    for (int i = 0; i < 20; ++i) {
        std::thread([&] {
            CHECK(pthread_setspecific(first_key, &first_key) == 0);
            CHECK(pthread_setspecific(second_key, reinterpret_cast<void *>(std::uintptr_t(rounds))) == 0);
            if (call_before) CHECK(called->empty());
        }).join();
        int count = 0;
        while (called->pop(out)) ++count;
        CHECK(count == 1 + rounds && out == "late");
    }
}

}  // namespace

int main() {
    CHECK(pthread_key_create(&first_key, call) == 0);
    CHECK(pthread_key_create(&second_key, call_twice) == 0);
    ring numbers{lockfree::pass_limit{2}};  // this thread's, and one more
    called = &numbers;
    threads_end(false, 1);
    threads_end(true, 1);
    threads_end(false, 3);
    threads_end(true, 3);
#ifndef LOCKFREE_UNDER_TSAN  // whose own state of a thread is gone in the last round
    CHECK(pthread_key_create(&last_key, call_in_the_last_round) == 0);  // after the key of the headers
    threads_leave();
#endif
    std::puts("passed");
}
