// over Boost: runs
// over lockfree: runs
#include "containers.hpp"

#include <memory>

int main() {
    const auto one = std::make_shared<int>(1);
    {
        lf::spsc_queue<std::shared_ptr<int>> queue(4);
        lf::spsc_queue<std::shared_ptr<int>, lf::capacity<4>> other;
        CHECK(queue.push(one) && queue.push(one) && one.use_count() == 3);
        std::shared_ptr<int> out[4];
        CHECK(other.push(one) && other.push(one) && other.pop(out, 4) == 2 && *out[1] == 1);
    }
    CHECK(one.use_count() == 1);
}
