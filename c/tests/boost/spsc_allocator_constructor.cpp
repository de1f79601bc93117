// over Boost: runs
// over lockfree: refused: no container here takes an allocator
#include "containers.hpp"

#include <memory>

int main() {
    lf::spsc_queue<int> queue(16, std::allocator<int>());
    CHECK(queue.push(1));
}
