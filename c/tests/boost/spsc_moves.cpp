// over Boost: refused: error
// over lockfree: runs
#include "containers.hpp"

#include <memory>

// Boost 1.74 copies.
int main() {
    lf::spsc_queue<std::unique_ptr<int>, lf::capacity<16>> queue;
    std::unique_ptr<int> out;
    CHECK(queue.push(std::make_unique<int>(5)) && queue.pop(out) && *out == 5);
}
