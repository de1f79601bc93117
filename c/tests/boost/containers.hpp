// The containers that a port runs over: Boost's, or these by the one include.
#pragma once

#ifdef OVER_LOCKFREE
#include "lockfree_boost.hpp"
#else
#include <boost/lockfree/queue.hpp>
#include <boost/lockfree/spsc_queue.hpp>
#include <boost/lockfree/stack.hpp>
#endif
#include "../check.hpp"

#include <thread>
#include <vector>

namespace lf = boost::lockfree;

/// Threads push `each` numbers, as many take them; each comes out once.
template <class Container> void stress(Container &container, int sides, long each, bool bounded) {
    std::vector<std::atomic<int>> seen(static_cast<std::size_t>(sides * each));
    std::atomic<long> taken{0};
    std::vector<std::thread> threads;
    for (int side = 0; side < sides; ++side) {
        threads.emplace_back([&, side] {
            for (long i = side * each; i < (side + 1) * each; ++i)
                while (!(bounded ? container.bounded_push(i) : container.push(i))) std::this_thread::yield();
        });
        threads.emplace_back([&] {
            while (taken < sides * each) {
                long value = 0;
                if (container.pop(value)) {
                    CHECK(++seen[static_cast<std::size_t>(value)] == 1);
                    ++taken;
                } else {
                    std::this_thread::yield();
                }
            }
        });
    }
    for (auto &thread : threads) thread.join();
    CHECK(container.empty() && taken == sides * each);
}
