// over Boost: runs
// over lockfree: refused: without fixed_sized<true> grows
#include "containers.hpp"

int main() {
    lf::queue<long> queue(128);
    stress(queue, 3, 5000, false);
}
