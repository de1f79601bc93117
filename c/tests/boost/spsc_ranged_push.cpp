// over Boost: runs
// over lockfree: runs
#include "containers.hpp"

int main() {
    lf::spsc_queue<int> queue(64);
    const int data[2] = {1, 2};
    CHECK(queue.push(data, data + 2) == data + 2);
    int out = 0;
    CHECK(queue.pop(out) && out == 1 && queue.pop(out) && out == 2 && !queue.pop(out));
}
