// over Boost: runs
// over lockfree: runs
#include "containers.hpp"

int main() {
    lf::stack<long, lf::capacity<128>> stack;
    stress(stack, 3, 5000, true);
}
