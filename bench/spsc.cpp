// How long an item takes through a queue for one producer and one consumer, from its push to its pop.
//
// usage: spsc KIND THREADS AT_ONCE ITEMS
//
// KIND: spsc: Boost.Lockfree's spsc_queue, with its slots in the queue, as an array. With -DOURS spsc is that of this repository,
// which both threads call as they call Boost's; spsc-ends its two ends, of which each thread has one; ring-pass the ring for many
// threads, called by two passes of split(). THREADS: 1, which pushes and pops in turn, or 2, a producer and a consumer, each on a
// core of its own if there are two. AT_ONCE: 1 for calls with one value, or 16 for calls with an array of so many. ITEMS: a
// multiple of AT_ONCE. CAPACITY is given when it is compiled (-DCAPACITY=4096), and so are the bytes of a value, each word of
// which is the item (-DVALUE_BYTES=64).
//
// It fails unless each item comes out once, and in order. A refused caller gives one spin hint and tries again. Each thousandth time
// it yields, so that a run ends on one core too.

#include <atomic>
#include <chrono>
#include <cstddef>
#include <cstdint>
#include <cstdio>
#include <cstdlib>
#include <memory>
#include <string>
#include <thread>
#include <utility>
#include <vector>

#include <immintrin.h>
#include <sched.h>

#ifdef OURS
#include "../c/lockfree.hpp"
namespace containers = lockfree;
#else
#include <boost/lockfree/spsc_queue.hpp>
namespace containers = boost::lockfree;
#endif

#ifndef CAPACITY
#define CAPACITY 4096
#endif
#ifndef VALUE_BYTES
#define VALUE_BYTES 8
#endif

namespace {

using Item = std::uint64_t;
using Clock = std::chrono::steady_clock;
constexpr std::size_t MANY = 16;

// What lies in a queue.
#if VALUE_BYTES == 8
using Value = Item;
Value value_of(Item item) { return item; }
bool is_of(Value value, Item item) { return value == item; }
#else
struct Value {
    Item words[VALUE_BYTES / 8];
};
Value value_of(Item item) {
    Value value;
    for (Item& word : value.words) word = item;
    return value;
}
bool is_of(const Value& value, Item item) {
    bool all = true;
    for (const Item word : value.words) all &= word == item;
    return all;
}
#endif

// A queue that both threads call.
template <class Queue> class Shared {
public:
    Queue& producer() { return queue_; }
    Queue& consumer() { return queue_; }

private:
    Queue queue_;
};
using Spsc = Shared<containers::spsc_queue<Value, containers::capacity<CAPACITY>>>;

#ifdef OURS
// Two ends, which each thread takes to its own stack.
class Ends {
public:
    auto producer() { return std::move(ends_.producer); }
    auto consumer() { return std::move(ends_.consumer); }

private:
    lockfree::spsc_ends<Value> ends_ = lockfree::spsc<Value>(CAPACITY);
};

class Passes {
public:
    auto producer() { return std::move(producer_); }
    auto consumer() { return std::move(consumer_); }

private:
    using Ring = lockfree::ring_queue<Value, lockfree::capacity<CAPACITY>>;
    Ring ring_{lockfree::pass_limit{2}};
    Ring::pass producer_ = ring_.split(), consumer_ = ring_.split();
};

std::size_t push_array(lockfree::ring_pass<Value>& to, const Value* from, std::size_t count) {
    return static_cast<std::size_t>(to.push(from, from + count) - from);
}
#endif

template <class Producer> std::size_t push_array(Producer& to, const Value* from, std::size_t count) {
    return to.push(from, count);
}

// Both return how many.
template <std::size_t AT_ONCE, class Producer>
std::size_t push(Producer& to, const Value* from, std::size_t count) {
    if constexpr (AT_ONCE == 1) return to.push(*from) ? 1 : 0;
    else return push_array(to, from, count);
}

template <std::size_t AT_ONCE, class Consumer> std::size_t pop(Consumer& from, Value* to) {
    if constexpr (AT_ONCE == 1) return from.pop(*to) ? 1 : 0;
    else return from.pop(to, AT_ONCE);
}

// What a refused caller does before it tries again.
class Waiting {
public:
    void wait() {
        _mm_pause();
        if (++refused_ % 1000 == 0) std::this_thread::yield();
    }

private:
    unsigned refused_ = 0;
};

template <std::size_t COUNT> void fill(Value (&values)[COUNT], Item item) {
    for (Value& value : values) value = value_of(item++);
}

void check(bool right) {
    if (right) return;
    std::fprintf(stderr, "spsc: items were lost, or came in another order\n");
    std::_Exit(1);
}

void check(const Value* values, std::size_t count, Item item) {
    bool all = true;
    for (std::size_t k = 0; k < count; ++k) all &= is_of(values[k], item + k);
    check(all);
}

template <std::size_t AT_ONCE, class Consumer> void check_nothing_is_left(Consumer& from) {
    Value rest[AT_ONCE];
    check(pop<AT_ONCE>(from, rest) == 0);
}

template <std::size_t AT_ONCE, class Producer> void push_all(Producer& to, Item items) {
    Value values[AT_ONCE];
    Waiting waiting;
    for (Item item = 0; item < items; item += AT_ONCE) {
        fill(values, item);
        for (std::size_t pushed = 0; pushed < AT_ONCE;) {
            const std::size_t more = push<AT_ONCE>(to, values + pushed, AT_ONCE - pushed);
            if (more == 0) waiting.wait();
            pushed += more;
        }
    }
}

template <std::size_t AT_ONCE, class Consumer> void pop_all(Consumer& from, Item items) {
    Value values[AT_ONCE];
    Waiting waiting;
    for (Item popped = 0; popped < items;) {
        const std::size_t more = pop<AT_ONCE>(from, values);
        if (more == 0) waiting.wait();
        check(values, more, popped);
        popped += more;
    }
}

using Time = std::chrono::duration<double, std::nano>;

template <std::size_t AT_ONCE, class Queue> Time by_one_thread(Queue& queue, Item items) {
    auto&& producer = queue.producer();
    auto&& consumer = queue.consumer();
    Value values[AT_ONCE];
    const auto start = Clock::now();
    for (Item item = 0; item < items; item += AT_ONCE) {
        fill(values, item);
        check(push<AT_ONCE>(producer, values, AT_ONCE) == AT_ONCE);
        check(pop<AT_ONCE>(consumer, values) == AT_ONCE);
        check(values, AT_ONCE, item);
    }
    const auto end = Clock::now();
    check_nothing_is_left<AT_ONCE>(consumer);
    return end - start;
}

// The cores that this process may use.
std::vector<int> all_cores() {
    cpu_set_t allowed;
    std::vector<int> cores;
    if (sched_getaffinity(0, sizeof allowed, &allowed) == 0)
        for (int core = 0; core < CPU_SETSIZE; ++core)
            if (CPU_ISSET(core, &allowed)) cores.push_back(core);
    return cores;
}

void bind_this_thread(int core) {
    cpu_set_t one;
    CPU_ZERO(&one);
    CPU_SET(core, &one);
    if (sched_setaffinity(0, sizeof one, &one) != 0) std::perror("spsc: a thread is not bound");
}

// The clock runs from when both threads are there to the last pop.
template <std::size_t AT_ONCE, class Queue> Time by_two_threads(Queue& queue, Item items) {
    const std::vector<int> cores = all_cores();
    std::atomic<bool> ready{false};
    Clock::time_point end;
    std::thread consuming([&] {
        bind_this_thread(cores.at(cores.size() - 1));
        auto&& consumer = queue.consumer();
        ready = true;
        pop_all<AT_ONCE>(consumer, items);
        end = Clock::now();
        check_nothing_is_left<AT_ONCE>(consumer);
    });
    bind_this_thread(cores.at(0));
    auto&& producer = queue.producer();
    while (!ready) std::this_thread::yield();
    const auto start = Clock::now();
    push_all<AT_ONCE>(producer, items);
    consuming.join();
    return end - start;
}

template <std::size_t AT_ONCE, class Queue> int measure(bool alone, Item items) {
    const auto queue = std::make_unique<Queue>();
    const Time spent = alone ? by_one_thread<AT_ONCE>(*queue, items) : by_two_threads<AT_ONCE>(*queue, items);
    std::printf("nanoseconds per item: %.2f\n", spent.count() / static_cast<double>(items));
    return 0;
}

template <std::size_t AT_ONCE> int measure_kind(const std::string& kind, bool alone, Item items) {
    if (items == 0 || items % AT_ONCE != 0) return 2;
    if (kind == "spsc") return measure<AT_ONCE, Spsc>(alone, items);
#ifdef OURS
    if (kind == "spsc-ends") return measure<AT_ONCE, Ends>(alone, items);
    if (kind == "ring-pass") return measure<AT_ONCE, Passes>(alone, items);
#endif
    return 2;
}

}  // namespace

int main(int count, char** words) {
    if (count != 5) {
        std::fprintf(stderr, "usage: spsc KIND THREADS AT_ONCE ITEMS\n");
        return 2;
    }
    const std::string kind = words[1], threads = words[2], at_once = words[3];
    const Item items = std::strtoull(words[4], nullptr, 10);
    if (threads != "1" && threads != "2") return 2;
    if (at_once == "1") return measure_kind<1>(kind, threads == "1", items);
    if (at_once == std::to_string(MANY)) return measure_kind<MANY>(kind, threads == "1", items);
    return 2;
}
