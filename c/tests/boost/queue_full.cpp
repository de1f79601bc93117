// over Boost: runs
// over lockfree: runs
#include "containers.hpp"

int main() {
    lf::queue<int, lf::capacity<4>> queue;
    int pushed = 0, out = 0;
    while (queue.bounded_push(pushed)) ++pushed;
    CHECK(pushed == 4 && !queue.push(9) && queue.pop(out) && out == 0 && queue.push(4));
    for (int i = 1; i <= 4; ++i) CHECK(queue.pop(out) && out == i);
}
