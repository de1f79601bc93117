// What a container says of itself by a gauge: whether it is closed, and how far it is worn, exactly; also of calls that the
// header has not heard of. Linked with -Wl,--wrap=lockfree_close, so that a close can be held up when it is made.
#include "lockfree.hpp"
#include "check.hpp"

#include <atomic>
#include <stdexcept>
#include <string>
#include <thread>
#include <type_traits>
#include <vector>

namespace {

stage *at_the_end_of_close = nullptr;

}  // namespace

extern "C" {
lockfree_answer __real_lockfree_close(lockfree_handle *, std::uint64_t);
lockfree_answer __wrap_lockfree_close(lockfree_handle *pass, std::uint64_t tries) {
    const lockfree_answer answer = __real_lockfree_close(pass, tries);
    if (at_the_end_of_close) {
        at_the_end_of_close->reach(1);
        at_the_end_of_close->await(2);
    }
    return answer;
}
}

namespace {

using lockfree::lap_limit;
using lockfree::status;
using lockfree::tag_limit;

using queue = lockfree::bounded_queue<std::string>;
using stack = lockfree::bounded_stack<std::string>;
using ring = lockfree::ring_queue<std::string>;

constexpr std::uint64_t limit = 10001, laps = 500;

template <class Container> using limit_of = std::conditional_t<std::is_same_v<Container, ring>, lap_limit, tag_limit>;

/// The part of its life that so many calls are: of a queue and of a ring its pushes, of a stack its pushes and pops. The ring
/// holds 3 values.
template <class Container> double part(long pushes, long pops) {
    constexpr bool is_stack = std::is_same_v<Container, stack>, is_queue = std::is_same_v<Container, queue>;
    const double used = static_cast<double>(is_stack ? pushes + pops : pushes);
    return used / static_cast<double>(is_stack ? limit : is_queue ? limit - 1 : 3 * laps);
}

/// After each call, of whichever pass; pops and refused calls among them.
template <class Container> void wears_exactly() {
    Container container(3, limit_of<Container>{std::is_same_v<Container, ring> ? laps : limit});
    const Container &seen = container;
    auto pass = container.split();
    std::string out;
    CHECK(seen.wear() == 0 && pass.wear() == 0 && !pass.pop(out) && seen.wear() == 0);
    long pushes = 0, pops = 0;
    for (int round = 0; round < 50; ++round) {
        for (int i = 0; i < 3; ++i) {
            CHECK(i % 2 ? pass.push("a") : container.push("b"));
            CHECK(seen.wear() == part<Container>(++pushes, pops));
        }
        CHECK(!pass.push("refused") && pass.wear() == part<Container>(pushes, pops));
        std::thread([&] {
            for (int i = 0; i < 3; ++i) {
                CHECK(container.pop(out));
                CHECK(seen.wear() == part<Container>(pushes, ++pops) && pass.wear() == seen.wear());
            }
        }).join();
        CHECK(!container.pop(out) && seen.empty() && seen.wear() == part<Container>(pushes, pops));
    }
}

/// Never falls while others call.
template <class Container> void only_rises() {
    Container container(3, limit_of<Container>{1000001});
    std::atomic<bool> ended{false};
    std::thread asks([&] {
        double last = 0;
        while (!ended) {
            const double now = container.wear();
            CHECK(last <= now && now <= 1);
            last = now;
        }
    });
    std::vector<std::thread> calls;
    for (int side = 0; side < 2; ++side)
        calls.emplace_back([&] {
            std::string out;
            for (int i = 0; i < 20000; ++i) container.push("x"), container.pop(out);
        });
    for (auto &thread : calls) thread.join();
    ended = true;
    asks.join();
    CHECK(!container.is_closed());
}

/// Closed by a pass, by another thread; said by the container, by a pass, of both before they have heard it.
template <class Container> void closes() {
    Container container(2);
    const Container &seen = container;
    auto pass = container.split(), other = container.split();
    CHECK(!seen.is_closed() && !pass.is_closed() && container.push("a"));
    std::thread([&] { CHECK(other.close()); }).join();
    CHECK(seen.is_closed() && pass.is_closed() && other.is_closed() && !pass.close() && seen.wear() > 0);
    std::string out;
    CHECK(pass.pop(out) && seen.is_closed() && container.finish([](std::string &) {}) == status::shared);
    pass = {};
    other = {};
    CHECK(container.finish([](std::string &) {}) == status::ok && seen.is_closed() && seen.wear() == 1);
    bool thrown = false;
    try {
        static_cast<void>(pass.is_closed());
    } catch (const std::length_error &) {
        thrown = true;
    }
    CHECK(thrown);
}

/// A close is said as soon as it is made, before its call has returned to the header.
template <class Container> void closes_before_the_call_returns() {
    Container container(2);
    stage steps;
    at_the_end_of_close = &steps;
    CHECK(!container.is_closed());
    std::thread closes([&] { CHECK(container.close()); });
    steps.await(1);
    CHECK(container.is_closed() && container.split().is_closed());
    steps.reach(2);
    closes.join();
    at_the_end_of_close = nullptr;
}

/// What a thread wrote before its close, others may read that are told of it.
template <class Container> void closes_after_what_was_written() {
    for (const bool asks : {true, false}) {
        Container container(2);
        CHECK(container.empty());  // this thread has its pass, so it takes no lock any more
        int written = 0;
        std::thread closes([&] {
            written = 5;
            CHECK(container.close());
        });
        std::string out;
        if (asks) while (!container.is_closed()) std::this_thread::yield();
        else CHECK(container.pop_wait(out) == status::closed);
        CHECK(written == 5);
        closes.join();
    }
}

template <class Container> void all() {
    wears_exactly<Container>();
    only_rises<Container>();
    closes<Container>();
    closes_before_the_call_returns<Container>();
    closes_after_what_was_written<Container>();
}

}  // namespace

int main() {
    all<queue>();
    all<stack>();
    all<ring>();
    std::puts("passed");
}
