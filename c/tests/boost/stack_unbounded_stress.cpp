// over Boost: runs
// over lockfree: refused: without fixed_sized<true> grows
#include "containers.hpp"

int main() {
    lf::stack<long> stack(128);
    stress(stack, 3, 5000, false);
}
