// over Boost: runs
// over lockfree: runs
#include "containers.hpp"

int main() {
    lf::stack<long, lf::fixed_sized<true>> stack(128);
    for (long i = 0; i < 128; ++i) CHECK(stack.push(i));
    CHECK(!stack.push(9) && !stack.bounded_push(9));
    long out = 0;
    for (long i = 127; i >= 0; --i) CHECK(stack.pop(out) && out == i);
}
