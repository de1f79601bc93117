// Which calls take a lock: the constructor, `split` and a thread's first call of a container. No other push or pop of large
// values does, if a queue or a stack has at most 64 passes, and whatever number a ring was made for. Counts the locks of this
// program by -Wl,--wrap=pthread_mutex_lock. Also that the cells of a ring lie in no stack, which would wear out before it does.
#include "lockfree.hpp"
#include "check.hpp"

#include <cstddef>
#include <pthread.h>
#include <vector>

namespace {

std::atomic<long> locks{0}, stacks{0};

}  // namespace

extern "C" {
int __real_pthread_mutex_lock(pthread_mutex_t *);
int __wrap_pthread_mutex_lock(pthread_mutex_t *lock) { return ++locks, __real_pthread_mutex_lock(lock); }
std::uint32_t __real_lockfree_stack_new(lockfree_handle *, std::uint32_t);
std::uint32_t __wrap_lockfree_stack_new(lockfree_handle *root, std::uint32_t room) { return ++stacks, __real_lockfree_stack_new(root, room); }
}

namespace {

struct large {
    std::uint64_t words[4];
};

/// Fills the container and empties it: many passes push what one pops, and one pushes what many pop.
template <class Container> void fills_with_no_lock(Container &container, std::size_t passes) {
    std::vector<decltype(container.split())> all;
    for (std::size_t i = 0; i < passes; ++i) all.push_back(container.split());
    const std::size_t room = container.capacity();
    const long before = locks;
    large out{};
    for (int round = 0; round < 3; ++round) {
        for (std::size_t i = 0; i < room; ++i) CHECK(all[i % passes].push(large{{i}}));
        for (std::size_t i = 0; i < room; ++i) CHECK(all[0].pop(out));
        for (std::size_t i = 0; i < room; ++i) CHECK(all[0].push(large{{i}}));
        for (std::size_t i = 0; i < room; ++i) CHECK(all[i % passes].pop(out));
        CHECK(!all[1].pop(out));
    }
    CHECK(locks == before);
}

}  // namespace

int main() {
    lockfree::bounded_queue<large> queue(2000);
    fills_with_no_lock(queue, 63);
    lockfree::bounded_stack<large> stack(2000);
    fills_with_no_lock(stack, 63);
    CHECK(locks > 0 && stacks == 2);  // (so they are counted)
    lockfree::ring_queue<large> ring(2000, lockfree::pass_limit{300});
    fills_with_no_lock(ring, 300);
    CHECK(stacks == 2);
    std::puts("passed");
}
