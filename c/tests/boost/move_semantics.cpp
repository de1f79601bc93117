// over Boost: refused: error
// over lockfree: runs
#include "containers.hpp"

#include <memory>
#include <string>

// Boost 1.74 copies.
int main() {
    lf::stack<std::unique_ptr<int>, lf::capacity<16>> stack;
    lf::queue<std::string, lf::capacity<16>> queue;
    std::unique_ptr<int> out;
    std::string text(40, 'x'), found;
    CHECK(stack.push(std::make_unique<int>(5)) && stack.pop(out) && *out == 5);
    CHECK(queue.push(std::move(text)) && text.empty() && queue.pop(found) && found == std::string(40, 'x'));
}
