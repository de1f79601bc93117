// over Boost: runs
// over lockfree: runs
#include "containers.hpp"

int main() {
    lf::stack<int, lf::capacity<64>> stack;
    std::vector<int> seen;
    for (int i = 0; i < 3; ++i) CHECK(stack.push(i));
    CHECK(stack.consume_all_atomic_reversed([&](int value) { seen.push_back(value); }) == 3 && seen == (std::vector<int>{0, 1, 2}) && stack.empty());
}
