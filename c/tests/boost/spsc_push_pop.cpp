// over Boost: runs
// over lockfree: runs
#include "containers.hpp"

template <class Queue> void all(Queue &queue) {
    CHECK(queue.empty() && queue.push(1) && queue.push(2));
    int first = 0, second = 0;
    CHECK(queue.pop(first) && first == 1 && queue.pop(second) && second == 2 && !queue.pop(first) && queue.empty());
    CHECK(queue.push(3) && queue.push(4));
    const bool popped = queue.pop();  // (and destroys it)
    CHECK(popped && queue.pop(first) && first == 4 && !queue.pop());
}

int main() {
    lf::spsc_queue<int, lf::capacity<64>> queue;
    lf::spsc_queue<int> sized(64);
    all(queue);
    all(sized);
    static_assert(std::is_same_v<decltype(queue)::value_type, int> && std::is_same_v<decltype(queue)::size_type, std::size_t>);
    CHECK(queue.is_lock_free());
}
