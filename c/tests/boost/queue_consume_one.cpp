// over Boost: runs
// over lockfree: runs
#include "containers.hpp"

struct adds {
    int *sum;
    void operator()(int value) const { *sum += value; }
};

int main() {
    lf::queue<int, lf::capacity<64>> queue;
    int sum = 0;
    const adds functor{&sum};
    CHECK(queue.push(1) && queue.push(2) && queue.push(3));
    CHECK(queue.consume_one([&](int value) { CHECK(value == 1); }) && queue.consume_one(functor) && sum == 2);
    CHECK(queue.consume_one([&](const int &value) { sum += value; }) && sum == 5 && !queue.consume_one(functor));
}
