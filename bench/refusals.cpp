// What a call costs that changes nothing: a push to a full container, a pop from an empty one, a look. One thread.
//
// usage: refusals KIND CALL
//
// KIND: stack or queue: Boost.Lockfree's, bounded; with -DOURS those of this repository, as C++ calls them, or its ring.
// CALL: push, pop or look. VALUE_BYTES is given when it is compiled. Prints the nanoseconds of a call: the least of 25 trials, each of
// 20,000 calls.

#include <chrono>
#include <cstdint>
#include <cstdio>
#include <string>

#ifdef OURS
#include "../c/lockfree.hpp"
namespace containers = lockfree;
#else
#include <boost/lockfree/queue.hpp>
#include <boost/lockfree/stack.hpp>
namespace containers = boost::lockfree;
#endif

#ifndef VALUE_BYTES
#define VALUE_BYTES 8
#endif

namespace {

struct Value {
    std::uint64_t words[VALUE_BYTES / 8];
};

constexpr int TRIALS = 25, CALLS = 20000;

enum class Call { push, pop, look };

// Whether the call was refused; of a look, whether it found values.
template <Call CALL, class Container>
bool refused(Container& container, Value& value) {
    if constexpr (CALL == Call::push) return !container.push(value);
    else if constexpr (CALL == Call::pop) return !container.pop(value);
    else return !container.empty();
}

template <Call CALL, class Container>
int measure_call() {
    using Clock = std::chrono::steady_clock;
    static Container container;
    Value value{};
    if (CALL != Call::pop)
        while (container.push(value)) {}
    double least = 1e9;
    for (int trial = 0; trial < TRIALS; ++trial) {
        int right = 0;
        const auto start = Clock::now();
        for (int i = 0; i < CALLS; ++i) right += refused<CALL>(container, value);
        const std::chrono::duration<double, std::nano> spent = Clock::now() - start;
        if (right != CALLS) return 1;
        if (spent.count() / CALLS < least) least = spent.count() / CALLS;
    }
    std::printf("nanoseconds of a call: %.1f\n", least);
    return 0;
}

template <class Container>
int measure(const std::string& call) {
    if (call == "push") return measure_call<Call::push, Container>();
    if (call == "pop") return measure_call<Call::pop, Container>();
    if (call == "look") return measure_call<Call::look, Container>();
    return 2;
}

}  // namespace

int main(int count, char** words) {
    if (count != 3) {
        std::fprintf(stderr, "usage: refusals KIND CALL\n");
        return 2;
    }
    const std::string kind = words[1], call = words[2];
    if (kind == "stack") return measure<containers::stack<Value, containers::capacity<64>>>(call);
    if (kind == "queue") return measure<containers::queue<Value, containers::capacity<64>>>(call);
#ifdef OURS
    if (kind == "ring") return measure<containers::ring_queue<Value, containers::capacity<64>>>(call);
#endif
    return 2;
}
