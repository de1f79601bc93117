// over Boost: runs
// over lockfree: runs
#include "containers.hpp"

int main() {
    lf::queue<int, lf::capacity<64>> queue;
    CHECK(queue.empty() && queue.push(1) && queue.push(2));
    int first = 0, second = 0;
    CHECK(queue.pop(first) && queue.pop(second) && first == 1 && second == 2 && !queue.pop(first) && queue.empty());
}
