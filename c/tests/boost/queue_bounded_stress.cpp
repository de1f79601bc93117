// over Boost: runs
// over lockfree: runs
#include "containers.hpp"

int main() {
    lf::queue<long, lf::capacity<128>> queue;
    stress(queue, 3, 5000, true);
}
