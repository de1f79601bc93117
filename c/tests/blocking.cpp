// Waiting calls that sleep: they are woken by a value, by room, by a close, by a stop; none sleeps while it could go on.
#include "lockfree/blocking.hpp"
#include "check.hpp"

#include <chrono>
#include <functional>
#include <memory>
#include <string>
#include <sys/resource.h>
#include <thread>
#include <vector>

namespace {

using lockfree::status;
using namespace std::chrono_literals;

template <class Container> void all_values_come() {
    lockfree::blocking<Container> container(2);
    constexpr long each = 5000, sides = 3;
    std::atomic<long> sum{0}, got{0};
    std::vector<std::thread> producers, consumers;
    for (long side = 0; side < sides; ++side) {
        producers.emplace_back([&, side] {
            for (long i = side * each; i < (side + 1) * each; ++i)
                CHECK(container.push_wait(std::to_string(i) + " and more than a short string") == status::ok);
        });
        consumers.emplace_back([&] {
            while (const auto value = container.pop_wait()) sum += std::stol(*value), ++got;
        });
    }
    for (auto &thread : producers) thread.join();
    CHECK(container.close() && container.try_push("late") == status::closed);
    for (auto &thread : consumers) thread.join();
    constexpr long count = sides * each;
    CHECK(got == count && sum == count * (count - 1) / 2 && container.container().empty());
}

/// A thread that waits for long wakes up some times, and not each millisecond.
void sleeps() {
    lockfree::blocking<lockfree::bounded_queue<int>> queue(1);
    long wakes = 0;
    std::thread waits([&] {
        rusage before{}, after{};
        getrusage(RUSAGE_THREAD, &before);
        int out = 0;
        CHECK(queue.pop_wait(out) == status::ok && out == 7);
        getrusage(RUSAGE_THREAD, &after);
        wakes = after.ru_nvcsw - before.ru_nvcsw;
    });
    std::this_thread::sleep_for(500ms);
    CHECK(queue.try_push(7) == status::ok);
    waits.join();
    CHECK(wakes <= 50);
}

void stops() {
    lockfree::blocking<lockfree::ring_queue<std::string>> ring(1);
    std::string kept(40, 'k'), out;
    CHECK(ring.try_push("first") == status::ok && ring.push_wait(std::move(kept), 5ms) == status::stopped && kept.size() == 40);
    CHECK(ring.push_wait(kept, std::chrono::steady_clock::now()) == status::stopped);
    int asked = 0;
    CHECK(ring.push_wait(kept, [&] { return ++asked == 3; }) == status::stopped && asked == 3);
    CHECK(ring.pop_wait(out, 0ms) == status::ok && out == "first" && !ring.pop_wait_until(1ms) && !ring.try_pop());
#if __cplusplus >= 202002L
    std::stop_source source;
    std::thread waits([&] { CHECK(ring.pop_wait(out, source.get_token()) == status::stopped); });
    source.request_stop();
    waits.join();
#endif
    std::thread ends([&] { CHECK(ring.pop_wait(out) == status::closed); });
    CHECK(ring.close() && !ring.close());
    ends.join();
    CHECK(ring.shut() && ring.try_pop(out) == status::shut);
}

/// A clock that stands still but for when it is told the time, and counts how often it is asked.
struct set_clock {
    using duration = std::chrono::nanoseconds;
    using rep = duration::rep;
    using period = duration::period;
    using time_point = std::chrono::time_point<set_clock>;
    static constexpr bool is_steady = false;
    static inline std::atomic<rep> shows{0};
    static inline std::atomic<long> asked{0};
    static time_point now() { return ++asked, time_point(duration(shows.load())); }
};

/// The wait ends by the clock of its deadline, and sleeps also while that stands still. (Who spins asks
/// it some thousand times in a millisecond.)
void deadlines_of_a_clock_that_is_set() {
    lockfree::blocking<lockfree::bounded_queue<int>> queue(1);
    int out = 0;
    std::thread waits([&] { CHECK(queue.pop_wait(out, set_clock::time_point(20ms)) == status::stopped); });
    std::this_thread::sleep_for(400ms);
    set_clock::shows = std::chrono::nanoseconds(1h).count();
    waits.join();
    CHECK(set_clock::asked < 200);
    CHECK(queue.pop_wait(out, std::chrono::steady_clock::time_point::min()) == status::stopped);
    CHECK(queue.pop_wait(out, set_clock::time_point::min()) == status::stopped);
}

/// Who sleeps is woken when the container is found to be spent, since nothing comes any more.
void spent_ones_wake() {
    lockfree::blocking<lockfree::ring_queue<std::string>> ring(2, lockfree::lap_limit{2});
    std::thread waits([&] {
        std::string out;
        int count = 0;
        while (ring.pop_wait(out) == status::ok) ++count;
        CHECK(count == 4 && ring.pop_wait(out) == status::spent && !ring.pop_wait());
    });
    for (int i = 0; i < 4; ++i) CHECK(ring.push_wait("a text that is longer than a short one") == status::ok);
    CHECK(ring.push_wait("one more") == status::spent);
    waits.join();
}

/// A value is made once, before the wait; stops may change when they are asked.
struct counts_copies {
    static inline std::atomic<int> copies{0};
    std::string text = "a text that is longer than a short one";
    counts_copies() = default;
    counts_copies(counts_copies &&) = default;
    counts_copies &operator=(counts_copies &&) = default;
    counts_copies(const counts_copies &other) : text(other.text) { ++copies; }
    counts_copies &operator=(const counts_copies &) = delete;
};
void values_are_made_once() {
    lockfree::blocking<lockfree::bounded_queue<counts_copies>> queue(1);
    const counts_copies value;
    CHECK(queue.try_push(value) == status::ok && counts_copies::copies == 1);
    struct {
        int asked = 0;
        bool operator()() { return ++asked == 3; }
    } stop;
    CHECK(queue.push_wait(value, stop) == status::stopped && stop.asked == 3 && counts_copies::copies == 2);
    CHECK(queue.emplace_wait_until(1ms) == status::stopped && queue.try_pop() && queue.emplace_wait() == status::ok);
}

template <class Container> void many_at_a_time() {
    lockfree::blocking<Container> container(4);
    const std::vector<int> some{1, 2, 3, 4, 5};
    CHECK(*container.try_push(some.begin(), some.end()).next == 5 && container.try_push_range(some).what == status::full);
    std::vector<int> out(5);
    CHECK(container.pop_wait(out.begin(), 5).count == 4 && container.pop_wait(out.begin(), 5, 1ms).what == status::stopped);
    std::thread pushes([&] { CHECK(container.try_push_range(std::vector<int>{7, 8}).what == status::ok); });
    std::size_t count = 0;
    while (count < 2) count += container.pop_wait(out.begin(), 5).count;
    pushes.join();
    CHECK(container.try_emplace(9) == status::ok && container.try_consume_one([](int value) { CHECK(value == 9); }) == status::ok);
    CHECK(container.try_push(9) == status::ok && container.try_consume_all([](int) {}).count == 1);
    CHECK(container.try_pop(out.begin(), 2).what == status::empty);
}

/// Passes wake and sleep as their container; an empty one does neither.
void passes() {
    using queue = lockfree::blocking<lockfree::ring_queue<std::string, lockfree::capacity<2>>>;
    queue texts(lockfree::pass_limit{2});
    auto one = texts.split(), other = texts.split();
    CHECK(one && !texts.try_split() && texts.try_push("by a thread") == status::no_pass);
    std::thread waits([&] {
        std::string out;
        int count = 0;
        while (other.pop_wait(out) == status::ok) ++count;
        CHECK(count == 100);
    });
    for (int i = 0; i < 100; ++i) CHECK(one.push_wait("a text that is longer than a short one") == status::ok);
    CHECK(one.close() && one.pass().is_closed());
    waits.join();
    other = {};
    queue::pass none;
    std::string out;
    CHECK(!other && none.pop_wait(out) == status::no_pass && none.push_wait("text") == status::no_pass && !none.try_pop());
}

/// A thread of a pool gives its pass to the next one.
void leaves() {
    lockfree::blocking<lockfree::ring_queue<int, lockfree::capacity<2>>> numbers(lockfree::pass_limit{1});
    CHECK(numbers.try_push(1) == status::ok && !numbers.try_split());
    numbers.leave();
    std::thread([&] { CHECK(numbers.try_pop() == 1); }).join();
    CHECK(numbers.try_push(2) == status::ok);
}

/// A channel for one reply that ends once the reply is there, while the other thread may still be in its push.
void replies() {
    using channel = lockfree::blocking<lockfree::queue<std::string, lockfree::capacity<1>>>;
    for (int round = 0; round < 200; ++round) {
        std::thread answers;
        std::string reply;
        {
            channel to_me;
            answers = std::thread([by = to_me.split()]() mutable { CHECK(by.push_wait("a text that is longer than a short one") == status::ok); });
            CHECK(to_me.pop_wait(reply) == status::ok);
        }
        answers.join();
    }
}

/// A value that is its own word, and whose constructor runs a function.
struct word_made {
    int number;
    explicit word_made(const std::function<void()> &run) : number((run(), 7)) {}
};

/// The function of a call, or the constructor of a value, ends the object that it was called of.
void ends_in_a_call() {
    using words = lockfree::blocking<lockfree::queue<word_made, lockfree::capacity<1>>>;
    auto word = std::make_unique<words>();
    auto of_words = std::make_unique<words::pass>(word->split());
    const std::function<void()> pass_ends = [&] { of_words.reset(); }, container_ends = [&] { word.reset(); };
    CHECK(of_words->try_emplace(pass_ends) == status::ok && !of_words && word->try_pop()->number == 7);
    of_words = std::make_unique<words::pass>(word->split());
    CHECK(word->try_emplace(container_ends) == status::ok && !word);
    CHECK(of_words->emplace_wait_until(1h, pass_ends) == status::stopped && !of_words);
    auto stack = std::make_unique<lockfree::blocking<lockfree::bounded_stack<std::string>>>(4);
    CHECK(stack->try_push("one") == status::ok && stack->try_push("two") == status::ok);
    CHECK(stack->try_consume_all_atomic([&](std::string &) { stack.reset(); }).count == 2);
    stack = lockfree::make<lockfree::blocking<lockfree::bounded_stack<std::string>>>(4);
    CHECK(stack && stack->try_push("one") == status::ok);
    auto pass = std::make_unique<decltype(stack->split())>(stack->split());
    CHECK(pass->try_consume_all_atomic_reversed([&](std::string &) { pass.reset(), stack.reset(); }).count == 1);
    CHECK(!lockfree::make<lockfree::blocking<lockfree::bounded_stack<int>>>(0));
    CHECK((lockfree::make<lockfree::blocking<lockfree::ring_queue<int, lockfree::capacity<4>>>>(lockfree::pass_limit{3})));
}

}  // namespace

int main() {
    deadlines_of_a_clock_that_is_set();
    spent_ones_wake();
    values_are_made_once();
    many_at_a_time<lockfree::bounded_queue<int>>();
    many_at_a_time<lockfree::bounded_stack<int>>();
    passes();
    leaves();
    replies();
    ends_in_a_call();
    all_values_come<lockfree::bounded_queue<std::string>>();
    all_values_come<lockfree::bounded_stack<std::string>>();
    all_values_come<lockfree::ring_queue<std::string>>();
    sleeps();
    stops();
    std::puts("passed");
}
