// over Boost: runs
// over lockfree: refused: no container here takes an allocator
#include "containers.hpp"

#include <memory>

int main() {
    lf::queue<int, lf::allocator<std::allocator<int>>> queue(16);
    lf::stack<int, lf::capacity<16>, lf::allocator<std::allocator<int>>> stack;
    CHECK(queue.push(1) && stack.push(1));
}
