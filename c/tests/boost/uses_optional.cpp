// over Boost: refused: error
// over lockfree: runs
#include "containers.hpp"

// Boost has it from 1.82 on.
int main() {
    lf::queue<int, lf::capacity<16>> queue;
    lf::stack<int, lf::capacity<16>> stack;
    CHECK(!queue.pop(lf::uses_optional) && queue.push(1) && queue.pop(lf::uses_optional) == 1);
    CHECK(!stack.pop(lf::uses_optional) && stack.push(2) && *stack.pop(lf::uses_optional) == 2);
}
