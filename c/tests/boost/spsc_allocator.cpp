// over Boost: runs
// over lockfree: refused: no container here takes an allocator
#include "containers.hpp"

#include <memory>

int main() {
    lf::spsc_queue<int, lf::allocator<std::allocator<int>>> queue(16);
    CHECK(queue.push(1));
}
