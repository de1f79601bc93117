// over Boost: runs
// over lockfree: runs
#include "containers.hpp"

#include <string>

int main() {
    lf::spsc_queue<int, lf::capacity<64>> queue;
    lf::spsc_queue<std::string> strings(4);
    CHECK(queue.push(1) && queue.push(2) && queue.front() == 1);
    int out = 0;
    CHECK(queue.pop(out) && out == 1);
    const auto &asked = queue;
    CHECK(asked.front() == 2);
    CHECK(strings.push("one") && strings.front() == "one");
    strings.front() += " more";
    std::string text;
    CHECK(strings.pop(text) && text == "one more");
}
