// Values in cells: whoever pushed and popped before, an empty container takes exactly as many as it has room for, of any
// thread; each value comes out once. Also of functions that call their container again, deeper than cells are at hand.
#include "lockfree.hpp"
#include "check.hpp"

#include <cstddef>
#include <memory>
#include <string>
#include <thread>
#include <vector>

namespace {

template <class Container> void fills(Container &container) {
    const std::size_t room = container.capacity();
    for (std::size_t i = 0; i < room; ++i) CHECK(container.push(counted(1)));
    counted kept(7);
    CHECK(container.try_push(std::move(kept)) == lockfree::status::full && *kept.number == 7);
    CHECK(container.consume_all([](counted &value) { CHECK(*value.number == 1); }) == room);
}

/// Some threads push, as many pop, in different ways.
template <class Container> void threads_of(Container &container, int threads, long each) {
    std::atomic<long> got{0}, sum{0};
    std::vector<std::thread> all;
    for (int side = 0; side < threads; ++side) {
        all.emplace_back([&, side] {
            auto pass = container.split();
            for (long i = 0; i < each; ++i) {
                counted value(side * each + i);
                CHECK((side % 3 == 0 ? pass.push_wait(value) : container.push_wait(std::move(value))) == lockfree::status::ok);
            }
        });
        all.emplace_back([&, side] {
            counted out;
            while (got < threads * each) {
                const bool found = side % 2 ? container.pop(out) : container.consume_one([&](counted &value) { out = std::move(value); });
                if (found) sum += *out.number, ++got;
                else std::this_thread::yield();
            }
        });
    }
    for (auto &thread : all) thread.join();
    const long count = threads * each;
    CHECK(sum == count * (count - 1) / 2);
}

template <class Container> void room_stays(std::size_t room, int threads, long each) {
    {
        Container container(room);
        fills(container);
        threads_of(container, threads, each);
        fills(container);
        for (int k = 0; k < 3; ++k) {  // one thread pushes alone, another pops alone, and a third fills it
            std::thread([&] { for (std::size_t i = 0; i < room; ++i) CHECK(container.push(counted(1))); }).join();
            std::thread([&] { counted out; for (std::size_t i = 0; i < room; ++i) CHECK(container.pop(out)); }).join();
            std::thread([&] { fills(container); }).join();
        }
        for (std::size_t i = 0; i < room; ++i) CHECK(container.push(counted(1)));
    }  // what is left ends with it
    CHECK(counted::alive == 0);
}

/// Fifty functions deep, each with a value in hand, and room for as many as it has.
template <class Container> void deep() {
    {
        Container container(60);
        for (long i = 0; i < 60; ++i) CHECK(container.push(counted(i)));
        int depth = 0;
        const auto nested = [&](auto &self) -> void {
            CHECK(container.consume_one([&](counted &) {
                CHECK(container.push(counted(100)));
                if (++depth < 50) self(self);
            }));
        };
        nested(nested);
        CHECK(container.consume_all([](counted &) {}) == 60);
        fills(container);
    }
    CHECK(counted::alive == 0);
}

/// A fold in a function that is called with a value in hand, and calls in the fold: each goes by a pass of its own.
void folds_in_calls() {
    {
        lockfree::stack<counted, lockfree::capacity<8>> stack;
        for (long i = 1; i <= 4; ++i) CHECK(stack.push(counted(i)));
        CHECK(stack.consume_one([&](counted &first) {
            CHECK(*first.number == 4 && stack.consume_all_atomic([&](counted &value) {
                CHECK(stack.push(counted(10 * *value.number)));
                CHECK(*value.number != 2 || stack.consume_all_atomic_reversed([](counted &) {}) == 2);
            }) == 3);
            std::thread([&] { CHECK(stack.push(counted(5))); }).join();
        }));
        std::vector<long> left;
        CHECK(stack.consume_all([&](counted &value) { left.push_back(*value.number); }) == 2 && left == (std::vector<long>{5, 10}));
        auto pass = stack.split();
        CHECK(pass.push(counted(1)) && pass.push(counted(2)));
        CHECK(pass.consume_all_atomic([&](counted &value) { CHECK(pass.push(std::move(value))); }) == 2);
        CHECK(pass.consume_all([](counted &) {}) == 2);
        fills(stack);
    }
    CHECK(counted::alive == 0);
}

/// Large ranges of two threads at a time, which have more values in hand than fit.
void ranges() {
    lockfree::bounded_stack<std::string> stack(100);
    const std::vector<std::string> many(150, std::string(50, 'x'));
    std::vector<std::thread> threads;
    for (int k = 0; k < 3; ++k)
        threads.emplace_back([&] {
            for (int i = 0; i < 50; ++i) {
                stack.push(many.begin(), many.end());
                stack.consume_all_atomic([](const std::string &value) { CHECK(value.size() == 50); });
            }
        });
    for (auto &thread : threads) thread.join();
    stack.consume_all([](std::string &) {});
    CHECK(stack.push(many.begin(), many.end()) == many.begin() + 100 && stack.push(many.begin(), many.end()) == many.begin());
    CHECK(stack.consume_all_atomic([](std::string) {}) == 100);
}

template <template <class, class...> class Container> void all(int many) {
    using container = Container<counted, lockfree::fixed_sized<true>>;
    for (const std::size_t room : {1u, 5u, 1000u})
        for (const int threads : {1, 4}) room_stays<container>(room, threads, 1000);
    room_stays<container>(64, many, 20);
    deep<container>();
}

}  // namespace

int main() {
    all<lockfree::queue>(50);
    all<lockfree::stack>(50);
    all<lockfree::ring_queue>(20);  // each brings three passes, of 64
    folds_in_calls();
    ranges();
    std::puts("passed");
}
