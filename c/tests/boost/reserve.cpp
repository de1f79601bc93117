// over Boost: runs
// over lockfree: refused: there is nothing to reserve
#include "containers.hpp"

int main() {
    lf::queue<int, lf::fixed_sized<true>> fixed(1);
    CHECK(fixed.push(1));
#ifdef OVER_LOCKFREE
    fixed.reserve(32);
#else
    lf::queue<int> queue(1);
    queue.reserve(32);
    lf::stack<int> stack(1);
    stack.reserve_unsafe(32);
    CHECK(queue.bounded_push(1) && stack.bounded_push(1));
#endif
}
