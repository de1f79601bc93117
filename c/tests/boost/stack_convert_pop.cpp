// over Boost: refused: is_convertible
// over lockfree: runs
#include "containers.hpp"

#include <memory>

// The stack of Boost 1.74 wants an implicit conversion; its queue does not.
int main() {
    lf::stack<int *, lf::capacity<64>> stack;
    CHECK(stack.push(new int(0)) && stack.push(new int(1)));
    std::shared_ptr<int> shared;
    std::unique_ptr<int> unique;
    CHECK(stack.pop(shared) && *shared == 1 && stack.pop(unique) && *unique == 0 && stack.empty());
}
