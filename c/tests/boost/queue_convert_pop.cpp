// over Boost: runs
// over lockfree: runs
#include "containers.hpp"

#include <memory>

int main() {
    lf::queue<int *, lf::capacity<64>> queue;
    for (int i = 0; i < 3; ++i) CHECK(queue.push(new int(i)));
    std::unique_ptr<int> unique;
    std::shared_ptr<int> shared;
    int *plain = nullptr;
    CHECK(queue.pop(unique) && *unique == 0 && queue.pop(shared) && *shared == 1 && queue.pop(plain) && *plain == 2);
    delete plain;
    CHECK(!queue.pop(unique) && queue.empty());
}
