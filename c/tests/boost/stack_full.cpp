// over Boost: runs
// over lockfree: runs
#include "containers.hpp"

int main() {
    lf::stack<int, lf::capacity<4>> stack;
    int pushed = 0, out = 0;
    while (stack.bounded_push(pushed)) ++pushed;
    CHECK(pushed == 4 && !stack.push(9) && stack.pop(out) && out == 3 && stack.push(4) && stack.pop(out) && out == 4);
}
