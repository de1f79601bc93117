// What the tests of the C++ header share.
#pragma once

#include <atomic>
#include <condition_variable>
#include <cstdio>
#include <cstdlib>
#include <memory>
#include <mutex>

#define CHECK(holds)                                                        \
    do {                                                                    \
        if (!(holds)) {                                                     \
            std::printf("%s:%d: not so: %s\n", __FILE__, __LINE__, #holds); \
            std::exit(1);                                                   \
        }                                                                   \
    } while (0)

/// Has memory of its own, and counts how many there are. One that was moved from has none.
struct counted {
    static inline std::atomic<long> alive{0};
    std::unique_ptr<long> number;
    explicit counted(long n = 0) : number(std::make_unique<long>(n)) { ++alive; }
    counted(const counted &other) : number(std::make_unique<long>(*other.number)) { ++alive; }
    counted(counted &&other) noexcept : number(std::move(other.number)) { ++alive; }
    counted &operator=(const counted &other) {
        number = std::make_unique<long>(*other.number);
        return *this;
    }
    counted &operator=(counted &&other) noexcept {
        number = std::move(other.number);
        return *this;
    }
    ~counted() { --alive; }
};

/// Steps that threads reach one after another, in an order that is always the same.
class stage {
public:
    void reach(int step) {
        const std::lock_guard<std::mutex> guard(lock);
        at = step;
        changed.notify_all();
    }
    void await(int step) {
        std::unique_lock<std::mutex> guard(lock);
        changed.wait(guard, [&] { return at >= step; });
    }

private:
    std::mutex lock;
    std::condition_variable changed;
    int at = 0;
};
