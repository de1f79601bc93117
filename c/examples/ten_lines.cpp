#include <lockfree.hpp>
#include <cstdio>
#include <thread>
int main() {
    lockfree::ring_queue<int, lockfree::capacity<64>> queue;   // allocates everything here
    std::thread producer([&] {
        for (int i = 0; i < 1000; ++i)
            if (queue.push_wait(i) != lockfree::status::ok) return;   // waits while it is full
        queue.close();                                         // no more values will come
    });
    int value, sum = 0;
    while (queue.pop_wait(value) == lockfree::status::ok) sum += value;   // until closed and empty
    producer.join();
    std::printf("%d\n", sum);                                  // 499500
}
