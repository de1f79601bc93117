// A program of two files, of which one is compiled with -fno-exceptions: the other one's calls still throw, and tidy up
// what an exception leaves. Each file is this one, with -DPART=1 (without exceptions) or 2, and linked in both orders.
#include "lockfree.hpp"
#include "check.hpp"

#include <stdexcept>
#include <string>

int without_exceptions();

#if PART == 1
int without_exceptions() {
    const auto queue = lockfree::make<lockfree::bounded_queue<counted>>(2);
    int found = 0;
    CHECK(queue && queue->push(counted(1)) && queue->consume_one([&](counted &value) { found = *value.number == 1; }));
    return found;
}
#else
int main() {
    CHECK(without_exceptions() == 1);
    bool thrown = false;
    try {
        lockfree::bounded_queue<counted> refused(0);
    } catch (const std::invalid_argument &) {
        thrown = true;
    }
    CHECK(thrown);
    lockfree::bounded_queue<counted> queue(1);
    for (int round = 0; round < 100; ++round) {  // more often than there are cells
        thrown = false;
        CHECK(queue.push(counted(2)));
        try {
            queue.consume_one([](counted &) { throw std::runtime_error("two"); });
        } catch (const std::runtime_error &) {
            thrown = true;
        }
        CHECK(thrown && counted::alive == 0);
    }
    std::puts("passed");
}
#endif
