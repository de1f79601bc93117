// over Boost: runs
// over lockfree: refused: Boost's own queue, stack or spsc_queue is included already
#include <boost/lockfree/lockfree_forward.hpp>
#include <boost/lockfree/policies.hpp>
#include <boost/lockfree/spsc_queue.hpp>

#include "containers.hpp"

// Boost's own queue of one producer and one consumer, before these: there is one of the name.
int main() {
    lf::spsc_queue<int, lf::capacity<4>> one;
    int out = 0;
    CHECK(one.push(1) && one.pop(out) && out == 1);
}
