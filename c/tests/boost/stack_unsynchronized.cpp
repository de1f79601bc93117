// over Boost: runs
// over lockfree: runs
#include "containers.hpp"

int main() {
    lf::stack<long, lf::fixed_sized<true>> stack(8);
    long out = 0;
    CHECK(stack.unsynchronized_push(1) && stack.push(2) && stack.unsynchronized_pop(out) && out == 2 && stack.pop(out) && out == 1);
    CHECK(!stack.unsynchronized_pop(out) && stack.empty());
}
