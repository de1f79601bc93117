// over Boost: runs
// over lockfree: refused: read-only location
#include "containers.hpp"

// The front of a word: over lockfree it is a copy, so it cannot be changed in its place.
int main() {
    lf::spsc_queue<int, lf::capacity<64>> queue;
    CHECK(queue.push(1));
    queue.front() = 2;
    int out = 0;
    CHECK(queue.pop(out) && out == 2);
}
