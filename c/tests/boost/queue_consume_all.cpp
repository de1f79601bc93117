// over Boost: runs
// over lockfree: runs
#include "containers.hpp"

int main() {
    lf::queue<int, lf::capacity<64>> queue;
    std::vector<int> seen;
    for (int i = 0; i < 10; ++i) CHECK(queue.push(i));
    CHECK(queue.consume_all([&](int value) { seen.push_back(value); }) == 10 && queue.empty());
    for (int i = 0; i < 10; ++i) CHECK(seen[static_cast<std::size_t>(i)] == i);
    CHECK(queue.consume_all([&](int) {}) == 0);
}
