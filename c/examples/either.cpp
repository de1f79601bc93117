// A program over Boost's queue and stack that runs over these too: -DOVER_LOCKFREE switches it.
#ifdef OVER_LOCKFREE
#include <lockfree.hpp>
namespace containers = lockfree;
template <class T> using shelf_of = lockfree::bounded_stack<T>;
#else
#include <boost/lockfree/queue.hpp>
#include <boost/lockfree/stack.hpp>
namespace containers = boost::lockfree;
template <class T> using shelf_of = boost::lockfree::stack<T>;  // 1.74's of a fixed size takes no range
#endif

#include <atomic>
#include <cstdio>
#include <thread>
#include <vector>

struct order {
    short client;
    short lot;
};

template <class Container> void one_thread(const char *name, Container &container) {
    std::printf("%s: empty %d\n", name, container.empty());
    int put = 0;
    while (container.bounded_push(order{static_cast<short>(put), 7})) ++put;
    std::printf("%s: %d fit\n", name, put);
    order out{};
    while (container.pop(out)) std::printf("%s: client %d lot %d\n", name, out.client, out.lot);
    for (short i = 0; i < 3; ++i) container.push(order{i, i});
    const bool one = container.consume_one([&](order value) { std::printf("%s: one %d\n", name, value.client); });
    const auto rest = container.consume_all([&](order value) { std::printf("%s: then %d\n", name, value.client); });
    std::printf("%s: %d and %d consumed, empty %d\n", name, one, static_cast<int>(rest), container.empty());
}

// A stack's own: all values at once, from the top down or from the bottom up.
template <class Stack> void all_at_once(const char *name, Stack &stack) {
    const auto show = [&](order value) { std::printf("%s: at once %d\n", name, value.client); };
    for (short i = 0; i < 3; ++i) stack.push(order{i, i});
    const auto down = stack.consume_all_atomic(show);
    for (short i = 0; i < 3; ++i) stack.push(order{i, i});
    const auto up = stack.consume_all_atomic_reversed(show);
    std::printf("%s: %d and %d consumed at once, empty %d\n", name, static_cast<int>(down), static_cast<int>(up), stack.empty());
}

// A stack's own: a range at once, of which as many go as fit. Boost 1.74 compiles it for a stack of no fixed size alone, of
// which `bounded_push` takes the cells that there are.
template <class Stack> void ranges(const char *name, Stack &stack) {
    const std::vector<order> orders{{1, 1}, {2, 2}, {3, 3}, {4, 4}};
    const auto put = [&](auto from) {
        const auto left = stack.bounded_push(from, orders.end());
        std::printf("%s: %d put, %d left\n", name, static_cast<int>(left - from), static_cast<int>(orders.end() - left));
        return left;
    };
    put(orders.begin());
    put(put(orders.begin()));
    stack.consume_all([&](order value) { std::printf("%s: of a range %d\n", name, value.client); });
}

template <class Container> void many_threads(const char *name, Container &container) {
    constexpr int sides = 4, each = 50000;
    std::atomic<long> taken{0}, sum{0};
    std::vector<std::thread> threads;
    for (int side = 0; side < sides; ++side) {
        threads.emplace_back([&, side] {
            for (int i = 0; i < each; ++i)
                while (!container.push(side * each + i)) std::this_thread::yield();
        });
        threads.emplace_back([&] {
            while (taken < sides * each) {
                int value = 0;
                if (container.pop(value)) sum += value, ++taken;
                else std::this_thread::yield();
            }
        });
    }
    for (auto &thread : threads) thread.join();
    std::printf("%s: %ld values, sum %ld\n", name, taken.load(), sum.load());
}

int main() {
    containers::queue<order, containers::fixed_sized<true>> orders(5);
    containers::stack<order, containers::capacity<5>> held;
    one_thread("queue", orders);
    one_thread("stack", held);
    all_at_once("stack", held);
    shelf_of<order> shelf(5);
    ranges("stack", shelf);
    containers::queue<int, containers::capacity<128>> numbers;
    containers::stack<int, containers::fixed_sized<true>> pile(128);
    many_threads("queue", numbers);
    many_threads("stack", pile);
}
