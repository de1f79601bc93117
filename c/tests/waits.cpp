// How long a waiting call sleeps between two tries. Linked with -Wl,--wrap=nanosleep,--wrap=sched_yield, so nothing sleeps.
#include "lockfree.hpp"
#include "check.hpp"

#include <chrono>
#include <ctime>
#include <optional>
#include <string>
#include <vector>

namespace {

std::vector<long> slept;  // microseconds

}  // namespace

extern "C" int __wrap_nanosleep(const timespec *of, timespec *) {
    slept.push_back(of->tv_sec * 1000000 + of->tv_nsec / 1000);
    return 0;
}
extern "C" int __wrap_sched_yield() { return 0; }

int main() {
    lockfree::bounded_queue<std::string> queue(1);
    std::string out;
    int asked = 0;
    CHECK(queue.pop_wait(out, [&] { return ++asked == 1500; }) == lockfree::status::stopped && slept.size() > 100);
    for (std::size_t i = 1; i < slept.size(); ++i) CHECK(slept[i] == (2 * slept[i - 1] < 1000 ? 2 * slept[i - 1] : 1000));
    CHECK(slept[0] == 50 && slept.back() == 1000);
    // a duration that is long over, however long
    CHECK(queue.pop_wait(out, std::chrono::hours(-3000000)) == lockfree::status::stopped);
    CHECK(queue.pop_wait(out, std::chrono::hours::min()) == lockfree::status::stopped);
    CHECK(queue.emplace_wait(std::size_t{40}, 'x') == lockfree::status::ok);
    CHECK(queue.emplace_wait_until(std::chrono::milliseconds(0), "y") == lockfree::status::stopped);
    CHECK(queue.pop_wait().value().size() == 40 && !queue.pop_wait_until(std::chrono::milliseconds(0)));
    std::puts("passed");
}
