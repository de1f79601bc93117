// over Boost: runs
// over lockfree: runs
#include "containers.hpp"

#include <vector>

// The three ways to push many, by a capacity that is no multiple of their number: what they return, and what is pushed.
int main() {
    int data[64];
    for (int i = 0; i < 64; ++i) data[i] = 2 * i;
    {
        lf::spsc_queue<int, lf::capacity<100>> queue;
        CHECK(queue.push(data, 64) == 64 && queue.push(data, 64) == 36 && queue.push(data, 64) == 0);
    }
    {
        lf::spsc_queue<int, lf::capacity<100>> queue;
        CHECK(queue.push(data) == 64 && queue.push(data) == 36 && queue.push(data) == 0);
    }
    {
        lf::spsc_queue<int, lf::capacity<100>> queue;
        CHECK(queue.push(data, data + 64) == data + 64 && queue.push(data, data + 64) == data + 36 && queue.push(data, data + 64) == data);
    }
    const int few[7] = {0, 2, 4, 6, 8, 10, 12};
    const std::vector<int> list(few, few + 7);
    lf::spsc_queue<int, lf::capacity<16>> queue;
    for (int way = 0; way < 3 * 64; ++way) {
        CHECK(queue.empty());
        if (way % 3 == 0) CHECK(queue.push(few, 7) == 7);
        if (way % 3 == 1) CHECK(queue.push(few) == 7);
        if (way % 3 == 2) CHECK(queue.push(list.begin(), list.end()) == list.end());
        for (int i = 0; i < 7; ++i) {
            int out = 0;
            CHECK(!queue.empty() && queue.pop(out) && out == 2 * i);
        }
        CHECK(queue.empty());
    }
}
