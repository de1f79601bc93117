// The calls that throw nothing, with and without exceptions; those with many values; and what stays after `finish`.
#include "lockfree.hpp"
#include "check.hpp"

#include <cstddef>
#include <iterator>
#include <string>
#include <thread>
#include <type_traits>
#include <utility>
#include <vector>

namespace {

using lockfree::status;

template <class Calls> void say(Calls &by, std::size_t held) {
    bool empty = held != 0, full = held != 3, closed = true;
    std::size_t size = 77;
    double wear = -1;
    CHECK(by.try_empty(empty) == status::ok && empty == (held == 0) && by.try_full(full) == status::ok && full == (held == 3));
    CHECK(by.try_size(size) == status::ok && size == held && by.try_is_closed(closed) == status::ok && !closed);
    CHECK(by.try_wear(wear) == status::ok && wear >= 0 && wear < 1);
}

/// Of a pass that is empty nothing changes, and each says no_pass.
template <class Pass> void say_no_pass(Pass &none) {
    bool kept = true;
    std::size_t size = 77;
    double wear = 5;
    CHECK(none.try_empty(kept) == status::no_pass && none.try_full(kept) == status::no_pass && none.try_is_closed(kept) == status::no_pass);
    CHECK(none.try_size(size) == status::no_pass && none.try_wear(wear) == status::no_pass && kept && size == 77 && wear > 4);
    CHECK(none.try_close() == status::no_pass && none.try_shut() == status::no_pass && !none.try_pop() && !none.pop_wait());
    CHECK(none.try_consume_one([](std::string &) {}) == status::no_pass);
    const auto taken = none.try_consume_all([](std::string &) {});
    CHECK(taken.count == 0 && taken.what == status::no_pass);
    const std::vector<std::string> some(2, "a");
    const auto put = none.try_push(some.begin(), some.end());
    CHECK(put.next == some.begin() && put.what == status::no_pass);
}

template <class Container> void all() {
    static_assert(noexcept(std::declval<Container &>().try_close()) && noexcept(std::declval<Container &>().try_shut()));
    const auto made = lockfree::make<Container>(3);
    CHECK(made);
    Container &container = *made;
    auto pass = container.try_split();
    static_assert(std::is_same_v<typename decltype(pass)::value_type, std::string>);
    const std::vector<std::string> some{"a", "b", "c", "d"};
    for (std::size_t held = 0; held < 3; ++held) {
        say(container, held);
        say(pass, held);
        CHECK((held % 2 ? pass.try_push("x") : container.try_emplace("y")) == status::ok);
    }
    say(container, 3);
    auto taken = pass.try_consume_all([](std::string &&) {});
    CHECK(taken.count == 3 && taken.what == status::empty);
    // ranges: of which as many go in as fit, and it is said why the others do not
    auto put = container.try_push(some.begin(), some.end());
    CHECK(put.next == some.begin() + 3 && put.what == status::full && container.full());
    std::vector<std::string> out(5);
    taken = container.try_pop(out.begin(), 2);
    CHECK(taken.count == 2 && taken.what == status::ok && pass.try_pop().value().size() == 1 && !pass.try_pop());
    CHECK(out[0] == (container.capacity() && std::is_base_of_v<lockfree::bounded_stack<std::string>, Container> ? "c" : "a"));
    put = pass.try_push(some.begin(), some.begin() + 2);
    CHECK(put.next == some.begin() + 2 && put.what == status::ok);
    taken = pass.try_pop(out.begin(), 5);
    CHECK(taken.count == 2 && taken.what == status::empty);
    CHECK(container.push(some.begin(), some.begin() + 1) == some.begin() + 1 && container.pop(out.begin(), 9) == 1);
    std::vector<std::string> moved(some);
    const auto left = pass.push(std::make_move_iterator(moved.begin()), std::make_move_iterator(moved.end())).base();
    CHECK(left == moved.begin() + 3 && moved[0].empty() && moved[3] == "d");
    CHECK(container.try_close() == status::ok && pass.try_close() == status::closed);
    put = container.try_push(some.begin(), some.end());
    CHECK(put.next == some.begin() && put.what == status::closed);
    CHECK(pass.pop_wait() && container.pop_wait() && pass.pop_wait() && !pass.pop_wait() && container.size() == 0);
    CHECK(container.try_shut() == status::ok && pass.try_shut() == status::shut);
    decltype(pass) none;
    say_no_pass(none);
}

/// After `finish` a pass is one whose calls say closed, whether one came back before or not.
template <class Container> void split_after_finish(bool came_back) {
    const auto made = lockfree::make<Container>(2);
    CHECK(made->push("a"));
    if (came_back) static_cast<void>(made->split());
    CHECK(made->finish([](std::string &) {}) == status::ok);
    auto pass = made->split();
    std::string out;
    CHECK(pass && pass.try_push("b") == status::closed && pass.try_pop(out) == status::closed && pass.size() == 0);
    std::thread([&] { CHECK(made->try_push("c") == status::closed); }).join();
}

/// As many threads as a server has call a ring that was given no number.
void threads_of_a_server() {
    lockfree::ring_queue<std::string> ring(4);
    constexpr int threads = 250;
    stage steps;
    std::vector<std::thread> all;
    for (int i = 0; i < threads; ++i) {
        all.emplace_back([&, i] {
            std::string out;
            CHECK(ring.try_push("a") == status::ok && ring.try_pop(out) == status::ok);
            steps.reach(i + 1);
            steps.await(threads);
        });
        steps.await(i + 1);
    }
    for (auto &thread : all) thread.join();
}

/// A stack's size, whoever pushed and popped.
void sizes_of_stacks() {
    lockfree::bounded_stack<long> stack(100);
    std::thread([&] { for (long i = 0; i < 60; ++i) CHECK(stack.push(i)); }).join();
    CHECK(stack.size() == 60 && stack.pop() && stack.size() == 59);
    auto pass = stack.split();
    CHECK(pass.consume_all_atomic([](long) {}) == 59 && stack.size() == 0 && stack.push(1) && pass.size() == 1);
    const long many[] = {1, 2, 3};
    CHECK(pass.push(many, many + 3) == many + 3 && stack.size() == 4);
}

}  // namespace

int main() {
    all<lockfree::bounded_queue<std::string>>();
    all<lockfree::bounded_stack<std::string>>();
    all<lockfree::ring_queue<std::string>>();
    for (const bool came_back : {false, true}) {
        split_after_finish<lockfree::bounded_queue<std::string>>(came_back);
        split_after_finish<lockfree::bounded_stack<std::string>>(came_back);
        split_after_finish<lockfree::ring_queue<std::string>>(came_back);
    }
    threads_of_a_server();
    sizes_of_stacks();
    std::puts("passed");
}
