// over Boost: runs
// over lockfree: runs
#include "containers.hpp"

int main() {
    lf::stack<int, lf::capacity<64>> stack;
    CHECK(stack.empty() && stack.push(1) && stack.push(2));
    int first = 0, second = 0;
    CHECK(stack.pop(first) && stack.pop(second) && first == 2 && second == 1 && !stack.pop(first) && stack.empty());
}
