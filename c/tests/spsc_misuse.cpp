// What builds without NDEBUG find: that two threads call one end of an spsc_queue at a time, and that a function ends the end
// that calls it. Each misuse ends a process of its own. A call by the other end, or again by the same thread, is none.
#undef NDEBUG
#include "lockfree.hpp"
#include "check.hpp"

#include <csignal>
#include <cstdio>
#include <memory>
#include <string>
#include <sys/wait.h>
#include <thread>
#include <unistd.h>
#include <utility>

namespace {

template <class Call> void in_thread(Call &&call) { std::thread(call).join(); }

/// Whether a call ends its process by abort().
template <class Call> bool aborts(Call &&call) {
    const pid_t child = fork();
    CHECK(child >= 0);
    if (child == 0) {
        CHECK(std::freopen("/dev/null", "w", stderr));  // (where the assertion is said)
        call();
        _exit(0);
    }
    int how = 0;
    CHECK(waitpid(child, &how, 0) == child);
    CHECK(WIFSIGNALED(how) || (WIFEXITED(how) && WEXITSTATUS(how) == 0));
    return WIFSIGNALED(how) && WTERMSIG(how) == SIGABRT;
}

/// Calls something when it is made.
struct calls_when_made {
    template <class Call> explicit calls_when_made(Call &&call) { call(); }
    std::string text;
};

template <class T> void consumers(const T &value) {
    const auto tries = [&](auto call) {
        return aborts([&] {
            lockfree::spsc_queue<T> queue(8);
            queue.push(value);
            queue.push(value);
            queue.consume_all([&](T &) { call(queue); });
        });
    };
    CHECK(tries([](auto &queue) { in_thread([&] { (void)queue.pop(); }); }));
    CHECK(tries([](auto &queue) { in_thread([&] { (void)queue.empty(); }); }));
    CHECK(tries([](auto &queue) { in_thread([&] { (void)queue.try_front(); }); }));
    CHECK(tries([](auto &queue) { in_thread([&] { queue.reset(); }); }));
    CHECK(!tries([](auto &queue) { (void)queue.pop(); }));
    CHECK(!tries([&](auto &queue) { in_thread([&] { CHECK(queue.push(value) && queue.write_available() > 0); }); }));
}

template <class T> void waits(const T &value) {
    const auto tries = [&](auto call) {
        return aborts([&] {
            lockfree::spsc_queue<T> queue(1);
            queue.push(value);
            (void)queue.push_wait(value, [&] { return call(queue), true; });
        });
    };
    CHECK(tries([&](auto &queue) { in_thread([&] { (void)queue.try_push(value); }); }));
    CHECK(tries([](auto &queue) { in_thread([&] { (void)queue.full(); }); }));
    CHECK(tries([](auto &queue) { in_thread([&] { (void)queue.close(); }); }));
    CHECK(!tries([](auto &queue) { in_thread([&] { CHECK(queue.pop()); }); }));
    CHECK(!tries([&](auto &queue) { CHECK(!queue.push(value)); }));
}

}  // namespace

int main() {
    consumers<long>(1);
    consumers<std::string>("one");
    waits<long>(1);
    waits<std::string>("one");
    CHECK(aborts([] {
        lockfree::spsc_queue<calls_when_made> queue(2);
        const auto nothing = [] {};
        queue.emplace([&] { in_thread([&] { queue.emplace(nothing); }); });
    }));
    CHECK(aborts([] {
        auto ends = lockfree::spsc<std::string>(2);
        ends.producer.push("one");
        ends.consumer.consume_one([&](std::string &) { ends.consumer = {}; });
    }));
    CHECK(aborts([] { lockfree::spsc_queue<int>(1).front(); }));
    CHECK(!aborts([] {  // an end that goes from thread to thread
        auto ends = lockfree::spsc<std::string>(2);
        for (int i = 0; i < 3; ++i)
            in_thread([&] { CHECK(ends.producer.push("one") && ends.consumer.pop()); });
    }));
    std::puts("passed");
}
