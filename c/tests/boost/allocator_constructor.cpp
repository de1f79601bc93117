// over Boost: refused: no matching function
// over lockfree: refused: no container here takes an allocator
#include "containers.hpp"

#include <memory>

// (Boost takes its own allocator of nodes alone, or one of the same type.)
int main() {
    const std::allocator<int> alloc;
    lf::queue<int, lf::fixed_sized<true>, lf::allocator<std::allocator<int>>> queue(16, alloc);
    lf::stack<int, lf::capacity<16>, lf::allocator<std::allocator<int>>> stack(alloc);
    CHECK(queue.push(1) && stack.push(1));
}
