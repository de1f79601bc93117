// From Boost: `while (!queue.push(value));` becomes push_wait, which also ends if the queue is closed or worn out.
#include <lockfree_boost.hpp>            // before: <boost/lockfree/queue.hpp>
#include <cstdio>
#include <thread>

int main() {
    boost::lockfree::queue<int, boost::lockfree::capacity<16>> queue;
    std::thread consumer([&] {
        long sum = 0;
        int value;
        // before: while (!done) while (queue.pop(value)) sum += value;
        while (queue.pop_wait(value) == lockfree::status::ok) sum += value;
        std::printf("%ld\n", sum);
    });
    for (int i = 0; i < 1000; ++i)
        // before: while (!queue.push(i));
        if (queue.push_wait(i) != lockfree::status::ok) break;
    queue.close();                        // before: done = true
    consumer.join();
}
