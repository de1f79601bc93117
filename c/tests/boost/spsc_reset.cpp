// over Boost: runs
// over lockfree: runs
#include "containers.hpp"

#include <string>

template <class T> void all(const T &value) {
    lf::spsc_queue<T, lf::capacity<64>> queue;
    CHECK(queue.empty() && queue.push(value) && queue.push(value) && !queue.empty());
    queue.reset();
    CHECK(queue.empty() && queue.write_available() == 64 && queue.push(value) && queue.read_available() == 1);
}

int main() {
    all<int>(1);
    all<std::string>("one");
}
