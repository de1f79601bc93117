// over Boost: runs
// over lockfree: runs
#include "containers.hpp"

int main() {
    const auto adds = [sum = 0](int value) mutable { return sum += value; };
    lf::stack<int, lf::capacity<64>> stack;
    CHECK(stack.push(1) && stack.push(2));
    auto copy = adds;
    CHECK(stack.consume_one(copy) && stack.consume_one(copy) && !stack.consume_one(copy) && copy(0) == 3);
}
