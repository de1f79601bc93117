// Why a call was refused, calls that wait, and what a container says of itself.
#include "lockfree.hpp"
#include "check.hpp"

#include <chrono>
#include <cstring>
#include <list>
#include <sstream>
#include <string>
#include <iterator>
#include <memory>
#include <thread>
#if __cplusplus >= 202002L
#include <stop_token>
#endif

namespace {

using lockfree::status;
using namespace std::chrono_literals;

template <class Container> void refusals() {
    Container container(2);
    const Container &seen = container;
    int out = 0;
    CHECK(seen.empty() && seen.capacity() == 2 && seen.is_lock_free() && !seen.is_closed() && Container::is_always_lock_free);
    CHECK(container.try_pop(out) == status::empty && container.try_push(1) == status::ok && container.try_emplace(2) == status::ok);
    CHECK(container.try_push(3) == status::full && !seen.empty());
    CHECK(container.close() && !container.close() && seen.is_closed());
    CHECK(container.try_push(5) == status::closed && container.push_wait(5) == status::closed && !container.push(5));
    CHECK(container.pop_wait(out) == status::ok && container.try_pop(out) == status::ok && seen.empty());
    CHECK(container.pop_wait(out) == status::closed && container.try_pop(out) == status::closed && !container.pop(out));
    CHECK(container.shut() && !container.shut() && container.try_pop(out) == status::shut && container.pop_wait(out) == status::shut);
}

template <class Container> void passes() {
    Container container(2);
    auto pass = container.split();
    int out = 0;
    CHECK(pass && pass.capacity() == 2 && pass.is_lock_free() && pass.empty() && pass.push(1) && pass.try_push(2) == status::ok);
    CHECK(pass.try_push(3) == status::full && pass.pop(out) && pass.pop(lockfree::uses_optional) && !pass.pop());
    CHECK(container.push(4) && pass.consume_one([](int value) { CHECK(value == 4); }) && pass.try_pop(out) == status::empty);
    decltype(pass) none, other = std::move(pass);
    CHECK(!none && none.try_push(1) == status::no_pass && none.try_pop(out) == status::no_pass && none.capacity() == 0);
    CHECK(!pass && other && other.close() && container.is_closed() && other.is_closed());
    auto second = container.try_split();
    CHECK(second && second.try_push(1) == status::closed);
}

/// Asked after each refused try; deadlines have passed when they say stopped.
template <class Container> void waits_stop() {
    using clock = std::chrono::steady_clock;
    Container container(1);
    int out = 0, asked = 0;
    CHECK(container.pop_wait(out, [&] { return ++asked == 3; }) == status::stopped && asked == 3 && container.push(1));
    CHECK(container.push_wait(2, [&] { return ++asked == 6; }) == status::stopped && asked == 6);
    auto begun = clock::now();
    CHECK(container.push_wait(2, begun + 5ms) == status::stopped && clock::now() >= begun + 5ms);
    begun = clock::now();
    CHECK(container.push_wait(2, 5ms) == status::stopped && clock::now() >= begun + 5ms);
    CHECK(container.push_wait(2, clock::now() - 1s) == status::stopped && container.push_wait(2, std::chrono::system_clock::now()) == status::stopped);
    CHECK(container.pop_wait(out, std::chrono::hours::max()) == status::ok && out == 1);
    CHECK(container.pop_wait(out, 0ms) == status::stopped && container.push_wait(7, 0ms) == status::ok);
#if __cplusplus >= 202002L
    std::stop_source source;
    const std::stop_token token = source.get_token();
    std::thread stops([&] { source.request_stop(); });
    CHECK(container.push_wait(2, token) == status::stopped && container.pop_wait(out, token) == status::ok);
    stops.join();
    CHECK(container.pop_wait(out, source.get_token()) == status::stopped);
#endif
}

/// Until the container is closed and empty.
template <class Container> void waits_end() {
    Container container(2);
    std::thread producer([&] {
        for (int i = 0; i < 10000; ++i) CHECK(container.push_wait(i) == status::ok);
        container.close();
    });
    long sum = 0;
    int out = 0;
    status last;
    while ((last = container.pop_wait(out)) == status::ok) sum += out;
    producer.join();
    CHECK(last == status::closed && sum == 49995000);
}

/// All at once if it can be read twice, else one after another; nothing that was not put is lost.
void ranges() {
    lockfree::stack<long, lockfree::capacity<4>> stack;
    std::istringstream three("1 2 3"), four("4 5 6 7");
    using words = std::istream_iterator<long>;
    CHECK(stack.push(words(three), words()) == words());
    const words left = stack.push(words(four), words());
    long out = 0;
    CHECK(left != words() && *left == 5 && four >> out && out == 6);
    CHECK(stack.pop(out) && out == 4 && stack.consume_all([](long) {}) == 3);
    const std::list<long> six{1, 2, 3, 4, 5, 6};
    auto pass = stack.split();
    CHECK(*pass.push(six.begin(), six.end()) == 5 && stack.unsynchronized_pop(out) && out == 4);
    CHECK(*stack.unsynchronized_push(six.begin(), six.end()) == 2 && pass.consume_all_atomic([](long) {}) == 4);
}

void names() {
    CHECK(std::strcmp(lockfree::to_string(status::ok), "ok") == 0 && std::strcmp(lockfree::to_string(status::no_pass), "no_pass") == 0);
    CHECK(!lockfree::make<lockfree::bounded_queue<int>>(0) && !lockfree::make<lockfree::bounded_stack<int>>(1048574));
    CHECK(lockfree::make<lockfree::bounded_queue<int>>(7)->capacity() == 7);
    const auto fixed = lockfree::make<lockfree::stack<std::string, lockfree::capacity<3>>>();
    CHECK(fixed && fixed->capacity() == 3 && fixed->push("a") && fixed->pop().value() == "a");
}

template <class Container> void all() {
    refusals<Container>();
    passes<Container>();
    waits_stop<Container>();
    waits_end<Container>();
}

}  // namespace

int main() {
    all<lockfree::bounded_queue<int>>();
    all<lockfree::bounded_stack<int>>();
    all<lockfree::ring_queue<int>>();
    ranges();
    names();
    std::puts("passed");
}
