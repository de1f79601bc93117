// over Boost: refused: error
// over lockfree: runs
#include "containers.hpp"

// Boost has it from 1.82 on.
int main() {
    lf::spsc_queue<int, lf::capacity<16>> queue;
    CHECK(!queue.pop(lf::uses_optional) && queue.push(1) && queue.pop(lf::uses_optional) == 1);
}
