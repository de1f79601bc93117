// over Boost: runs
// over lockfree: runs
#include "containers.hpp"

/// What is left is destroyed with the stack, once.
int main() {
    {
        lf::stack<counted, lf::fixed_sized<true>> stack(64);
        for (long i = 0; i < 10; ++i) CHECK(stack.push(counted(i)));
        counted out;
        CHECK(stack.pop(out) && *out.number == 9);
    }
    CHECK(counted::alive == 0);
}
