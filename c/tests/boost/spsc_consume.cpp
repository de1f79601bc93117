// over Boost: runs
// over lockfree: runs
#include "containers.hpp"

int main() {
    lf::spsc_queue<int> queue(64);
    CHECK(queue.empty() && queue.push(1) && queue.push(2));
    CHECK(queue.consume_one([](int value) { CHECK(value == 1); }) && queue.consume_one([](int value) { CHECK(value == 2); }));
    CHECK(!queue.consume_one([](int) { CHECK(false); }) && queue.empty());
    CHECK(queue.push(1) && queue.push(2));
    int sum = 0;
    CHECK(queue.consume_all([&](int value) { sum += value; }) == 2 && sum == 3 && queue.empty());
    CHECK(queue.consume_all([&](int) { CHECK(false); }) == 0);
    struct adds {
        int sum = 0;
        void operator()(int value) { sum += value; }
    } by_reference;
    CHECK(queue.push(4) && queue.push(5) && queue.consume_one(by_reference) && queue.consume_all(by_reference) == 1 && by_reference.sum == 9);
}
