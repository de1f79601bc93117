// over Boost: runs
// over lockfree: runs
#include "containers.hpp"

constexpr int values = 20000;

/// One thread pushes numbers, one pops them: in order, one by one.
template <class Queue> void one_by_one(Queue &queue) {
    std::thread producer([&] {
        for (int i = 0; i < values; ++i)
            while (!queue.push(i)) std::this_thread::yield();
    });
    for (int i = 0; i < values;) {
        int out = -1;
        if (queue.pop(out)) CHECK(out == i++);
        else std::this_thread::yield();
    }
    producer.join();
    CHECK(queue.empty());
}

/// The same by buffers of other lengths on each side.
template <class Queue> void by_buffers(Queue &queue) {
    std::thread producer([&] {
        std::vector<int> some;
        for (int begin = 0; begin < values;) {
            some.clear();
            for (int i = begin; i < values && i < begin + 100; ++i) some.push_back(i);
            const std::size_t pushed = queue.push(some.data(), some.size());
            if (pushed == 0) std::this_thread::yield();
            begin += static_cast<int>(pushed);
        }
    });
    int next = 0;
    while (next < values) {
        int out[70];
        const std::size_t popped = queue.pop(out);
        if (popped == 0) std::this_thread::yield();
        for (std::size_t i = 0; i < popped; ++i) CHECK(out[i] == next++);
    }
    producer.join();
    CHECK(queue.empty());
}

int main() {
    lf::spsc_queue<int, lf::capacity<128>> queue;
    lf::spsc_queue<int> sized(3);
    one_by_one(queue);
    one_by_one(sized);
    by_buffers(queue);
    by_buffers(sized);
}
