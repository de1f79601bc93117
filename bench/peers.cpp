// How long an item takes through a container, from its put to its take: each producer puts its items,
// the consumers take them all. With no producer one thread puts and takes in turn.
//
// usage: peers KIND PRODUCERS CONSUMERS ITEMS [WORK]
//
// KIND: stack or queue: Boost.Lockfree's, bounded, with its nodes in the container, as an array, which
// is its fastest form; mutex-stack or mutex-queue: a std::mutex over a std::vector or a std::deque;
// moodycamel: moodycamel::ConcurrentQueue, where its header is there. WORK: nanoseconds of work before
// each put and after each take. CAPACITY is given when it is compiled (-DCAPACITY=4096), and so are the bytes of a value:
// the item, and room beside it (-DVALUE_BYTES=64). With -DOURS the stack and the queue are those of this repository,
// as C++ calls them, and there is a ring, and no other; with -pass after a name the one thread calls by a pass of split().
//
// Two runs are made: the first gives nanoseconds per item, the second, with the clock read
// before and after each call, the percentiles. A refused caller gives 50 spin hints and then yields.

#include <algorithm>
#include <atomic>
#include <chrono>
#include <cstdint>
#include <cstdio>
#include <cstdlib>
#include <deque>
#include <memory>
#include <mutex>
#include <string>
#include <thread>
#include <vector>

#include <immintrin.h>

#ifdef OURS
#include "../c/lockfree.hpp"
namespace containers = lockfree;
#else
#include <boost/lockfree/queue.hpp>
#include <boost/lockfree/stack.hpp>
namespace containers = boost::lockfree;
#if __has_include(<concurrentqueue/moodycamel/concurrentqueue.h>)
#include <concurrentqueue/moodycamel/concurrentqueue.h>
#define MOODYCAMEL
#elif __has_include(<concurrentqueue/concurrentqueue.h>)
#include <concurrentqueue/concurrentqueue.h>
#define MOODYCAMEL
#endif
#endif

#ifndef CAPACITY
#define CAPACITY 4096
#endif
#ifndef VALUE_BYTES
#define VALUE_BYTES 8
#endif

namespace {

using Item = std::uint64_t;
using Clock = std::chrono::steady_clock;

// What lies in a container.
#if VALUE_BYTES == 8
using Value = Item;
Value value_of(Item item) { return item; }
Item item_of(Value value) { return value; }
#else
struct Value {
    Item item;
    Item rest[VALUE_BYTES / 8 - 1];
};
Value value_of(Item item) { return Value{item, {}}; }
Item item_of(const Value& value) { return value.item; }
#endif

using Stack = containers::stack<Value, containers::capacity<CAPACITY>>;
using Queue = containers::queue<Value, containers::capacity<CAPACITY>>;
#ifdef OURS
using Ring = containers::ring_queue<Value, containers::capacity<CAPACITY>>;

// A container that is called by one pass.
template <class Container> class ByPass {
public:
    bool push(const Value& value) { return pass_.push(value); }
    bool pop(Value& value) { return pass_.pop(value); }

private:
    Container container_;
    typename Container::pass pass_ = container_.split();
};
#endif

class MutexStack {
public:
    MutexStack() { values_.reserve(CAPACITY); }

    bool push(const Value& value) {
        const std::lock_guard<std::mutex> guard(mutex_);
        if (values_.size() >= CAPACITY) return false;
        values_.push_back(value);
        return true;
    }

    bool pop(Value& value) {
        const std::lock_guard<std::mutex> guard(mutex_);
        if (values_.empty()) return false;
        value = values_.back();
        values_.pop_back();
        return true;
    }

private:
    std::mutex mutex_;
    std::vector<Value> values_;
};

class MutexQueue {
public:
    bool push(const Value& value) {
        const std::lock_guard<std::mutex> guard(mutex_);
        if (values_.size() >= CAPACITY) return false;
        values_.push_back(value);
        return true;
    }

    bool pop(Value& value) {
        const std::lock_guard<std::mutex> guard(mutex_);
        if (values_.empty()) return false;
        value = values_.front();
        values_.pop_front();
        return true;
    }

private:
    std::mutex mutex_;
    std::deque<Value> values_;
};

#ifdef MOODYCAMEL
class Moodycamel {
public:
    bool push(const Value& value) { return values_.try_enqueue(value); }
    bool pop(Value& value) { return values_.try_dequeue(value); }

private:
    moodycamel::ConcurrentQueue<Value> values_{CAPACITY};
};
#endif

struct Load {
    unsigned producers;
    unsigned consumers;
    Item items;
    std::uint64_t turns;
};

// How many calls of a thread are timed: its first ones.
constexpr std::size_t MOST_TIMED = 65536;

// Notes nothing.
struct Untimed {
    static std::uint64_t begin() { return 0; }
    void end(std::uint64_t) {}
    std::vector<std::uint64_t> times;
};

std::uint64_t now() {
    return static_cast<std::uint64_t>(
        std::chrono::duration_cast<std::chrono::nanoseconds>(Clock::now().time_since_epoch()).count());
}

// Reads the clock before and after each call.
struct Timed {
    // The memory is written once, so that no page is missing while calls are timed.
    Timed() : times(MOST_TIMED, ~std::uint64_t{0}) { times.clear(); }
    static std::uint64_t begin() { return now(); }
    void end(std::uint64_t begun) {
        const std::uint64_t spent = now() - begun;
        if (times.size() < MOST_TIMED) times.push_back(spent);
    }
    std::vector<std::uint64_t> times;
};

// Work on an item: so many turns, each of which needs the one before.
Item worked(Item item, std::uint64_t turns) {
    for (std::uint64_t turn = 0; turn < turns; ++turn) item = (item ^ (item >> 32)) * 6364136223846793005u;
    return item;
}

std::atomic<Item> kept{0};

// The turns that take so many nanoseconds, by the shortest of some trials.
std::uint64_t turns_for(std::uint64_t nanoseconds) {
    constexpr std::uint64_t TRIAL = 10000;
    std::uint64_t shortest = ~std::uint64_t{0};
    Item made = 1;
    for (int trial = 0; trial < 30; ++trial) {
        const std::uint64_t start = now();
        made = worked(made, TRIAL);
        shortest = std::min(shortest, now() - start);
    }
    kept += made;
    return nanoseconds * TRIAL / std::max<std::uint64_t>(shortest, 1);
}

void give_way() {
    for (int hint = 0; hint < 50; ++hint) _mm_pause();
    std::this_thread::yield();
}

// What the items that came out add up to, so that no take can be left out.
struct Outcome {
    Item taken = 0;
    Item sum = 0;
};

template <class Container, class Meter>
bool put(Container& container, Item item, Meter& meter) {
    const Value value = value_of(item);
    const std::uint64_t begun = Meter::begin();
    const bool done = container.push(value);
    meter.end(begun);
    return done;
}

template <class Container, class Meter>
bool take(Container& container, Item& item, Meter& meter) {
    Value value{};
    const std::uint64_t begun = Meter::begin();
    const bool done = container.pop(value);
    meter.end(begun);
    item = item_of(value);
    return done;
}

template <class Container, class Meter>
Outcome put_and_take(Container& container, const Load& load, Meter& meter) {
    Outcome outcome;
    for (Item item = 0; item < load.items; ++item) {
        Item found = 0;
        if (!put(container, worked(item, load.turns), meter) || !take(container, found, meter)) break;
        outcome.sum += worked(found, load.turns);
        ++outcome.taken;
    }
    return outcome;
}

template <class Container, class Meter>
void put_all(Container& container, const Load& load, Meter& meter) {
    for (Item item = 0; item < load.items; ++item) {
        const Item made = worked(item, load.turns);
        while (!put(container, made, meter)) give_way();
    }
}

// Takes until the producers have ended and nothing is left.
template <class Container, class Meter>
Outcome take_all(Container& container, const Load& load, const std::atomic<bool>& closed, Meter& meter) {
    Outcome outcome;
    for (;;) {
        const bool last = closed.load();
        Item found = 0;
        if (take(container, found, meter)) {
            outcome.sum += worked(found, load.turns);
            ++outcome.taken;
        } else if (last) {
            return outcome;
        } else {
            give_way();
        }
    }
}

template <class Container, class Meter>
Outcome send_through(Container& container, const Load& load, std::vector<Meter>& meters) {
    std::atomic<bool> closed{false};
    std::vector<Outcome> outcomes(load.consumers);
    std::vector<std::thread> takers;
    for (unsigned k = 0; k < load.consumers; ++k)
        takers.emplace_back([&, k] {
            Outcome outcome = take_all(container, load, closed, meters[k]);
            outcomes[k] = outcome;
        });
    std::vector<std::thread> putters;
    for (unsigned k = 0; k < load.producers; ++k)
        putters.emplace_back([&, k] { put_all(container, load, meters[load.consumers + k]); });
    for (auto& putter : putters) putter.join();
    closed = true;
    for (auto& taker : takers) taker.join();
    Outcome all;
    for (const auto& outcome : outcomes) {
        all.taken += outcome.taken;
        all.sum += outcome.sum;
    }
    return all;
}

// What all items add up to when they have been worked on twice.
Item expected_sum(const Load& load) {
    Item sum = 0;
    for (Item item = 0; item < load.items; ++item) sum += worked(worked(item, load.turns), load.turns);
    return sum * std::max(load.producers, 1u);
}

// Sends the items through a new container; answers the nanoseconds, and the times of the calls.
template <class Container, class Meter>
double send(const Load& load, Item sum, std::vector<std::uint64_t>& times) {
    const auto container = std::make_unique<Container>();
    std::vector<Meter> meters(std::max(1u, load.producers + load.consumers));
    const auto start = Clock::now();
    const Outcome outcome = load.producers == 0 ? put_and_take(*container, load, meters[0])
                                                : send_through(*container, load, meters);
    const std::chrono::duration<double, std::nano> spent = Clock::now() - start;
    if (outcome.taken != std::max(load.producers, 1u) * load.items || outcome.sum != sum) {
        std::fprintf(stderr, "peers: items were lost\n");
        std::exit(1);
    }
    for (const auto& meter : meters) times.insert(times.end(), meter.times.begin(), meter.times.end());
    return spent.count();
}

// The least time at or below which so many thousandths of the times lie.
std::uint64_t percentile(const std::vector<std::uint64_t>& sorted, std::size_t thousandths) {
    return sorted[(sorted.size() * thousandths + 999) / 1000 - 1];
}

template <class Container>
int measure(const Load& load) {
    const Item sum = expected_sum(load);
    std::vector<std::uint64_t> times;
    const double spent = send<Container, Untimed>(load, sum, times);
    const Item items = std::max(load.producers, 1u) * load.items;
    std::printf("items taken: %llu\n", static_cast<unsigned long long>(items));
    std::printf("nanoseconds per item: %.1f\n", spent / static_cast<double>(items));
    send<Container, Timed>(load, sum, times);
    std::sort(times.begin(), times.end());
    const std::pair<const char*, std::size_t> shares[] = {{"50th", 500}, {"99th", 990}, {"99.9th", 999}};
    for (const auto& share : shares)
        std::printf("nanoseconds of a call, %s percentile: %llu\n", share.first,
                    static_cast<unsigned long long>(percentile(times, share.second)));
    return 0;
}

}  // namespace

int main(int count, char** words) {
    if (count != 5 && count != 6) {
        std::fprintf(stderr, "usage: peers KIND PRODUCERS CONSUMERS ITEMS [WORK]\n");
        return 2;
    }
    const std::string kind = words[1];
    const std::uint64_t work = count == 6 ? std::strtoull(words[5], nullptr, 10) : 0;
    const Load load{static_cast<unsigned>(std::atoi(words[2])), static_cast<unsigned>(std::atoi(words[3])),
                    static_cast<Item>(std::atoll(words[4])), work == 0 ? 0 : turns_for(work)};
    if (load.items == 0 || (load.producers > 0 && load.consumers == 0)) return 2;
    if (kind == "stack") return measure<Stack>(load);
    if (kind == "queue") return measure<Queue>(load);
#ifdef OURS
    if (kind == "ring") return measure<Ring>(load);
    if (load.producers == 0) {
        if (kind == "stack-pass") return measure<ByPass<Stack>>(load);
        if (kind == "queue-pass") return measure<ByPass<Queue>>(load);
        if (kind == "ring-pass") return measure<ByPass<Ring>>(load);
    }
#else
    if (kind == "mutex-stack") return measure<MutexStack>(load);
    if (kind == "mutex-queue") return measure<MutexQueue>(load);
#endif
#ifdef MOODYCAMEL
    if (kind == "moodycamel") return measure<Moodycamel>(load);
#endif
    return 2;
}
