// over Boost: runs
// over lockfree: runs
#include "containers.hpp"

#include <boost/lockfree/lockfree_forward.hpp>
#include <boost/lockfree/policies.hpp>
#include <boost/lockfree/queue.hpp>
#include <boost/lockfree/spsc_queue.hpp>
#include <boost/lockfree/stack.hpp>

// Boost's headers after these, which are empty then, and Boost's policies.
int main() {
    lf::spsc_queue<int, lf::capacity<4>> one;
    lf::queue<int, lf::fixed_sized<true>> many(4);
    lf::stack<int, lf::capacity<4>> pile;
    int out = 0;
    CHECK(one.push(1) && one.pop(out) && many.push(out) && many.pop(out) && pile.push(out) && pile.pop(out) && out == 1);
}
