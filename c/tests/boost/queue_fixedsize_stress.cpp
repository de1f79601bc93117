// over Boost: runs
// over lockfree: runs
#include "containers.hpp"

int main() {
    lf::queue<long, lf::fixed_sized<true>> queue(8);
    stress(queue, 2, 5000, false);
}
