// over Boost: runs
// over lockfree: runs
#include "containers.hpp"

#include <iterator>
#include <vector>

// The three ways to pop many.
int main() {
    lf::spsc_queue<int, lf::capacity<16>> queue;
    for (int way = 0; way < 3 * 64; ++way) {
        CHECK(queue.empty());
        for (int i = 0; i < 7; ++i) CHECK(queue.push(2 * i));
        int out[7];
        std::vector<int> list;
        if (way % 3 == 0) CHECK(queue.pop(out, 7) == 7);
        if (way % 3 == 1) CHECK(queue.pop(out) == 7);
        if (way % 3 == 2) CHECK(queue.pop(std::back_inserter(list)) == 7);
        for (int i = 0; i < 7; ++i) CHECK((way % 3 == 2 ? list[static_cast<std::size_t>(i)] : out[i]) == 2 * i);
        CHECK(queue.pop(out, 7) == 0 && queue.pop(out) == 0 && queue.pop(std::back_inserter(list)) == 0);
        auto to = std::back_inserter(list);  // (an lvalue, which takes an int too)
        CHECK(queue.push(5) && queue.push(6) && queue.pop(to) == 2 && list.back() == 6);
    }
}
