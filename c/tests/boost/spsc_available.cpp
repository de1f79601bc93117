// over Boost: runs
// over lockfree: runs
#include "containers.hpp"

int main() {
    lf::spsc_queue<int, lf::capacity<16>> queue;
    CHECK(queue.write_available() == 16 && queue.read_available() == 0);
    for (std::size_t round = 0; round < 3; ++round) {  // (half full, half empty, full: so that it goes round)
        const std::size_t count = round == 1 ? 16 : 8;
        for (std::size_t i = 0; i < count; ++i) {
            CHECK(queue.write_available() == 16 - i && queue.read_available() == i && queue.push(1));
            CHECK(queue.write_available() == 15 - i && queue.read_available() == i + 1);
        }
        CHECK(count < 16 || !queue.push(1));
        for (std::size_t i = 0; i < count; ++i) {
            int out = 0;
            CHECK(queue.read_available() == count - i && queue.pop(out));
            CHECK(queue.write_available() == 16 - count + i + 1 && queue.read_available() == count - i - 1);
        }
    }
    const auto &asked = queue;
    CHECK(asked.write_available() == 16 && asked.read_available() == 0);
}
