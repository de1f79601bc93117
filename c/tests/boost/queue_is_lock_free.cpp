// over Boost: runs
// over lockfree: runs
#include "containers.hpp"

int main() {
    const lf::queue<int, lf::capacity<64>> queue;
    CHECK(queue.is_lock_free() && queue.empty());
}
