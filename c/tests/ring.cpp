// The ring: how many passes may be out, what one more is told, who gets those that end; what it takes in its life.
#include "lockfree.hpp"
#include "check.hpp"

#include <cstddef>
#include <memory>
#include <new>
#include <stdexcept>
#include <string>
#include <thread>
#include <type_traits>
#include <vector>

namespace {

using lockfree::lap_limit;
using lockfree::pass_limit;
using lockfree::status;
using ring = lockfree::ring_queue<std::string>;

static_assert(!std::is_constructible_v<ring, std::size_t, lockfree::tag_limit>, "a ring wears by laps");
static_assert(!std::is_constructible_v<lockfree::bounded_queue<int>, std::size_t, pass_limit>, "a queue has all passes that there are");
static_assert(std::is_constructible_v<ring, std::size_t, lap_limit, pass_limit> && std::is_constructible_v<ring, std::size_t, pass_limit, lap_limit>);

template <class Call> bool throws_length_error(Call &&call) {
    try {
        call();
    } catch (const std::length_error &) {
        return true;
    }
    return false;
}

/// Two passes: the main thread's, and one that others have one after another.
void one_pass_more() {
    ring container(4, pass_limit{2});
    std::string out, kept = "kept";
    CHECK(container.push("a"));
    auto pass = container.split();
    CHECK(pass.push("b") && !container.try_split() && throws_length_error([&] { static_cast<void>(container.split()); }));
    std::thread([&] {
        CHECK(container.try_push(std::move(kept)) == status::no_pass && kept == "kept" && container.try_pop(out) == status::no_pass);
        CHECK(container.push_wait(kept) == status::no_pass && container.pop_wait(out) == status::no_pass);
        CHECK(throws_length_error([&] { container.push(kept); }) && throws_length_error([&] { container.pop(out); }));
        CHECK(throws_length_error([&] { container.empty(); }) && throws_length_error([&] { container.close(); }));
        pass = {};  // goes back, and is this thread's by its next call
        CHECK(container.push(kept) && !container.try_split());
    }).join();
    for (int i = 0; i < 200; ++i) std::thread([&] { CHECK(container.push("c") && container.pop(out)); }).join();
    CHECK(container.try_split());
    const auto last = container.split();
    CHECK(last && !container.try_split());
}

/// A thousand threads in turn, by two passes, and exactly what is left at the end.
void a_thousand_threads_in_turn() {
    ring container(4, pass_limit{2});
    std::string out;
    for (int number = 0; number < 1000; ++number) {
        std::thread([&] {
            auto mine = container.split();
            CHECK(mine.push(std::to_string(number)));
        }).join();
        if (number < 997) CHECK(container.pop(out) && out == std::to_string(number));
    }
    std::vector<std::string> left;
    CHECK(container.finish([&](std::string &&value) { left.push_back(std::move(value)); }) == status::ok);
    CHECK((left == std::vector<std::string>{"997", "998", "999"}));
}

/// As many threads at a time as passes, of containers of other sizes.
void as_many_threads() {
    for (const std::size_t passes : {1u, 3u, 40u}) {
        lockfree::ring_queue<long, lockfree::capacity<5>> container{pass_limit{passes}};
        std::atomic<long> refused{0};
        stage steps;
        std::vector<std::thread> threads;
        for (std::size_t i = 0; i <= passes; ++i) {
            threads.emplace_back([&, i] {
                if (container.try_push(1) == status::no_pass) ++refused;
                steps.reach(static_cast<int>(i) + 1);
                steps.await(static_cast<int>(passes) + 1);  // and keeps its pass
            });
            steps.await(static_cast<int>(i) + 1);
        }
        for (auto &thread : threads) thread.join();
        CHECK(refused == 1 && container.consume_all([](long) {}) == (passes < 5 ? passes : 5));
    }
}

template <class Error, class... Limits> bool refuses(std::size_t room, Limits... limits) {
    CHECK(!lockfree::make<ring>(room, limits...));
    try {
        ring container(room, limits...);
    } catch (const Error &) {
        return true;
    }
    return false;
}

void limits() {
    using bad = std::invalid_argument;
    CHECK(refuses<bad>(0) && refuses<bad>(4, pass_limit{0}) && refuses<bad>(4, pass_limit{65535}) && refuses<bad>(4, pass_limit{std::size_t{1} << 32}));
    CHECK(refuses<bad>(4, lap_limit{0}) && refuses<bad>(4, lap_limit{std::uint64_t{1} << 41}) && refuses<bad>(1048573, pass_limit{2}));
    CHECK(refuses<bad>(std::size_t{1} << 32));
    using numbers = lockfree::ring_queue<int>;
    CHECK(lockfree::make<numbers>(1048573, pass_limit{1}) && lockfree::make<numbers>(2, pass_limit{65534}));
    CHECK(lockfree::make<numbers>(4, pass_limit{2}, lap_limit{3}) && lockfree::make<numbers>(4, lap_limit{3}, pass_limit{2}));
    CHECK((lockfree::make<lockfree::ring_queue<int, lockfree::capacity<3>>>(pass_limit{2})->capacity() == 3));
    const numbers usual(4);
    CHECK(usual.capacity() == 4 && usual.empty() && !usual.is_closed() && usual.wear() == 0);
}

/// A ring of capacity n and l laps takes n * l values. Then pushes are spent, and pops give what is left.
void wears_out() {
    {
        lockfree::ring_queue<counted> container(4, pass_limit{2}, lap_limit{25});
        counted out;
        for (long i = 0; i < 100; ++i) {
            CHECK(container.wear() == static_cast<double>(i) / 100 && container.push(counted(i)));
            if (i < 97) CHECK(container.pop(out) && *out.number == i);
        }
        counted kept(7);
        CHECK(container.wear() == 1 && container.try_push(std::move(kept)) == status::spent && *kept.number == 7);
        CHECK(container.push_wait(kept) == status::spent && container.pop(out) && *out.number == 97);
        int found = 0;
        CHECK(container.finish([&](counted value) { CHECK(*value.number == 98 + found++); }) == status::ok && found == 2);
        CHECK(container.wear() == 1 && container.is_closed() && container.try_push(std::move(kept)) == status::closed);
    }
    CHECK(counted::alive == 0);
}

/// What a call has heard of a close, others say too.
void closes() {
    ring container(2, pass_limit{3});
    auto pass = container.split();
    std::string out;
    CHECK(container.push("a") && !pass.is_closed() && container.close() && !pass.close() && pass.is_closed() && container.is_closed());
    CHECK(pass.try_push("b") == status::closed && container.try_pop(out) == status::ok && pass.try_pop(out) == status::closed);
    CHECK(pass.shut() && !container.shut() && container.try_pop(out) == status::shut);
}

}  // namespace

int main() {
    one_pass_more();
    a_thousand_threads_in_turn();
    as_many_threads();
    limits();
    wears_out();
    closes();
    std::puts("passed");
}
