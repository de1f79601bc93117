// over Boost: refused: invalid conversion
// over lockfree: runs
#include "containers.hpp"

// Boost 1.74 writes a node's address where a queue of fixed size has its index.
int main() {
    lf::queue<long, lf::fixed_sized<true>> queue(8);
    long out = 0;
    CHECK(queue.unsynchronized_push(1) && queue.push(2) && queue.unsynchronized_push(3));
    CHECK(queue.unsynchronized_pop(out) && out == 1 && queue.pop(out) && out == 2 && queue.unsynchronized_pop(out) && out == 3);
    CHECK(!queue.unsynchronized_pop(out) && queue.empty());
}
