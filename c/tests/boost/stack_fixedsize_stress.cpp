// over Boost: runs
// over lockfree: runs
#include "containers.hpp"

int main() {
    lf::stack<long, lf::fixed_sized<true>> stack(8);
    stress(stack, 2, 5000, false);
}
