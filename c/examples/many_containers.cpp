// A queue for each connection, and one thread that serves them all: it finds its pass of each in a few instructions. The
// queues are rings for two threads, which take the least memory.
#include <lockfree.hpp>
#include <cstdio>
#include <memory>
#include <thread>
#include <vector>

using inbox = lockfree::ring_queue<int>;

int main() {
    std::vector<std::unique_ptr<inbox>> connections;
    for (int i = 0; i < 1000; ++i) connections.push_back(std::make_unique<inbox>(8, lockfree::pass_limit{2}));
    std::thread network([&] {
        for (int round = 0; round < 8; ++round)
            for (auto &connection : connections)
                if (!connection->push(round)) return;
        for (auto &connection : connections) connection->close();
    });
    long sum = 0;
    std::vector<bool> ended(connections.size());
    for (std::size_t open = connections.size(); open > 0;)
        for (std::size_t i = 0; i < connections.size(); ++i) {
            int value = 0;
            lockfree::status what;
            while ((what = connections[i]->try_pop(value)) == lockfree::status::ok) sum += value;
            if (what != lockfree::status::closed || ended[i]) continue;
            ended[i] = true;              // closed and empty
            --open;
        }
    network.join();
    std::printf("%ld\n", sum);
}
