// over Boost: refused: error
// over lockfree: runs
#include "containers.hpp"

// Boost 1.74 compiles a range for a stack that grows alone.
int main() {
    lf::stack<long, lf::capacity<4>> stack;
    const long six[] = {0, 1, 2, 3, 4, 5};
    CHECK(stack.push(six, six + 6) == six + 4 && stack.push(six, six + 6) == six);
    long out = 0;
    for (long i = 3; i >= 0; --i) CHECK(stack.pop(out) && out == i);
    CHECK(stack.bounded_push(six, six + 2) == six + 2 && stack.pop(out) && out == 1);
}
