// The C++ header: values that have a destructor, threads that come and go, containers that end, refusals.
#include "lockfree.hpp"

#include <atomic>
#include <cstdio>
#include <cstdlib>
#include <iterator>
#include <memory>
#include <string>
#include <thread>
#include <vector>

#define CHECK(holds)                                                             \
    do {                                                                         \
        if (!(holds)) {                                                          \
            std::printf("%s:%d: not so: %s\n", __FILE__, __LINE__, #holds);      \
            std::exit(1);                                                        \
        }                                                                        \
    } while (0)

namespace {

// Counts how many there are, and is destroyed once.
struct counted {
    static inline std::atomic<long> alive{0};
    std::unique_ptr<long> number;
    explicit counted(long n = 0) : number(std::make_unique<long>(n)) { ++alive; }
    counted(const counted &other) : number(std::make_unique<long>(*other.number)) { ++alive; }
    counted(counted &&other) noexcept : number(std::move(other.number)) { ++alive; }
    counted &operator=(const counted &other) {
        number = std::make_unique<long>(*other.number);
        return *this;
    }
    counted &operator=(counted &&other) noexcept {
        number = std::move(other.number);
        return *this;
    }
    ~counted() { --alive; }
};

constexpr long each = 20000;
constexpr int sides = 4;

template <class Container> void values_with_destructors() {
    {
        Container container(64);
        for (long i = 0; i < 10; ++i) CHECK(container.push(counted(i)));
        counted out;
        CHECK(container.pop(out));
        CHECK(container.consume_one([](counted &value) { CHECK(*value.number < 10); }));
    }  // eight are left, and end with it
    CHECK(counted::alive == 0);
}

template <class Container> void many_threads(bool own_passes) {
    Container container(64);
    std::vector<std::atomic<int>> seen(sides * each);
    std::atomic<long> taken{0};
    std::vector<std::thread> threads;
    for (int side = 0; side < sides; ++side) {
        threads.emplace_back([&, side] {
            auto pass = container.split();
            for (long i = side * each; i < (side + 1) * each; ++i) {
                const counted value(i);
                while (!(own_passes ? pass.push(value) : container.push(value))) std::this_thread::yield();
            }
        });
        threads.emplace_back([&] {
            auto pass = container.split();
            counted out;
            while (taken < sides * each) {
                if (!(own_passes ? pass.pop(out) : container.pop(out))) {
                    std::this_thread::yield();
                    continue;
                }
                CHECK(++seen[static_cast<std::size_t>(*out.number)] == 1);
                ++taken;
            }
        });
    }
    for (auto &thread : threads) thread.join();
    CHECK(container.empty() && taken == sides * each);
}

template <class Container> void threads_come_and_go() {
    Container container(4);
    for (int i = 0; i < 500; ++i)
        std::thread([&] {
            int out = 0;
            CHECK(container.push(i) && container.pop(out) && out == i);
        }).join();
}

// A thread's pass of a container that has ended is not taken for one of the next.
template <class Container> void containers_end() {
    for (int i = 0; i < 100; ++i) {
        auto container = std::make_unique<Container>(2);
        int out = 0;
        CHECK(container->empty() && !container->pop(out) && container->push(i) && container->push(i + 1));
        CHECK(!container->push(i + 2) && container->consume_all([](int) {}) == 2);
    }
    auto container = std::make_unique<Container>(2);
    auto pass = container->split();
    CHECK(container->push(5));
    container.reset();  // the pass keeps what it needs
    int out = 0;
    CHECK(pass.pop(out) && out == 5 && !pass.pop(out));
}

template <class Container> void refusals() {
    bool refused = false;
    try {
        Container container(0);
    } catch (const std::invalid_argument &) {
        refused = true;
    }
    CHECK(refused);
    Container container(2);
    CHECK(container.close() && !container.close() && !container.push(1));
}

// Each value comes out once, and is destroyed once, also where the function throws.
void folds_of_all_values() {
    {
        lockfree::stack<counted, lockfree::fixed_sized<true>> stack(64);
        std::vector<long> seen;
        const auto note = [&](counted &value) { seen.push_back(*value.number); };
        CHECK(stack.consume_all_atomic(note) == 0);
        for (long i = 1; i <= 3; ++i) CHECK(stack.push(counted(i)));
        CHECK(stack.consume_all_atomic(note) == 3 && seen == (std::vector<long>{3, 2, 1}) && stack.empty());
        for (long i = 1; i <= 3; ++i) CHECK(stack.push(counted(i)));
        seen.clear();
        CHECK(stack.consume_all_atomic_reversed(note) == 3 && seen == (std::vector<long>{1, 2, 3}) && counted::alive == 0);
        for (long i = 1; i <= 3; ++i) CHECK(stack.push(counted(i)));
        bool thrown = false;
        try {
            stack.consume_all_atomic([](counted &value) {
                if (*value.number == 2) throw std::runtime_error("two");
            });
        } catch (const std::runtime_error &) {
            thrown = true;
        }
        CHECK(thrown && counted::alive == 0 && stack.empty());
        for (long i = 0; i < 64; ++i) CHECK(stack.push(counted(i)));
    }  // sixty-four are left, and end with it
    CHECK(counted::alive == 0);
}

// What the function does with the stack is a call as any other.
void folds_that_call_their_stack() {
    lockfree::stack<int, lockfree::capacity<8>> stack;
    for (int i = 0; i < 3; ++i) CHECK(stack.push(i));
    for (int round = 0; round < 3; ++round)
        CHECK(stack.consume_all_atomic([&](int value) { CHECK(stack.push(value)); }) == 3);
    int inner = 0, out = 0;
    CHECK(stack.consume_all_atomic_reversed([&](int value) {
        CHECK(stack.push(value));
        stack.consume_all_atomic([&](int) { ++inner; });
    }) == 3);
    CHECK(inner == 3 && stack.empty() && !stack.pop(out));
}

void folds_of_many_threads(bool reversed) {
    {
        lockfree::stack<counted, lockfree::fixed_sized<true>> stack(64);
        std::vector<std::atomic<int>> seen(sides * each);
        std::atomic<long> taken{0};
        std::vector<std::thread> threads;
        for (int side = 0; side < sides; ++side) {
            threads.emplace_back([&, side] {
                for (long i = side * each; i < (side + 1) * each; ++i)
                    while (!stack.push(counted(i))) std::this_thread::yield();
            });
            threads.emplace_back([&] {
                const auto note = [&](counted &value) {
                    CHECK(++seen[static_cast<std::size_t>(*value.number)] == 1);
                    ++taken;
                };
                while (taken < sides * each)
                    if (!(reversed ? stack.consume_all_atomic_reversed(note) : stack.consume_all_atomic(note))) std::this_thread::yield();
            });
        }
        for (auto &thread : threads) thread.join();
        CHECK(stack.empty() && taken == sides * each);
    }
    CHECK(counted::alive == 0);
}

// What of a range is not put is destroyed, and what is put comes out, the last of it first.
void ranges() {
    {
        lockfree::stack<counted, lockfree::fixed_sized<true>> stack(4);
        std::vector<counted> values;
        for (long i = 1; i <= 6; ++i) values.emplace_back(i);
        CHECK(stack.push(values.begin(), values.begin()) == values.begin() && stack.empty());
        CHECK(stack.push(values.begin(), values.begin() + 3) == values.begin() + 3 && counted::alive == 9);
        CHECK(stack.bounded_push(values.cbegin() + 3, values.cend()) == values.cbegin() + 4 && counted::alive == 10);
        CHECK(stack.push(values.begin(), values.end()) == values.begin() && counted::alive == 10);
        std::vector<long> seen;
        CHECK(stack.consume_all([&](counted &value) { seen.push_back(*value.number); }) == 4 && seen == (std::vector<long>{4, 3, 2, 1}));
        CHECK(stack.push(std::make_move_iterator(values.begin()), std::make_move_iterator(values.end())).base() == values.begin() + 4);
        CHECK(counted::alive == 10);
    }  // four are left, and end with it
    CHECK(counted::alive == 0);
    lockfree::stack<int, lockfree::capacity<4>> numbers;
    const int six[] = {1, 2, 3, 4, 5, 6};
    auto pass = numbers.split();
    int out = 0;
    CHECK(pass.push(six, six + 6) == six + 4 && pass.pop(out) && out == 4 && numbers.pop(out) && out == 3);
    CHECK(numbers.push(six, six + 6) == six + 2 && numbers.pop(out) && out == 2 && numbers.close());
    CHECK(numbers.push(six, six + 6) == six && pass.push(six, six + 1) == six && pass.pop(out) && out == 1);
}

// Cannot be copied where it is the third.
struct third_throws {
    counted inner;
    explicit third_throws(long number) : inner(number) {}
    third_throws(const third_throws &other) : inner(other.inner) {
        if (*inner.number == 3) throw std::runtime_error("three");
    }
};

// Goes over values that lie apart.
struct reads {
    using iterator_category = std::forward_iterator_tag;
    using value_type = third_throws;
    using difference_type = std::ptrdiff_t;
    using pointer = const third_throws *;
    using reference = const third_throws &;
    const std::unique_ptr<third_throws> *at;
    reference operator*() const { return **at; }
    reads &operator++() { return ++at, *this; }
    bool operator==(const reads &other) const { return at == other.at; }
    bool operator!=(const reads &other) const { return at != other.at; }
};

// A range of which a value cannot be copied leaves the stack and the thread's pass as they were.
void ranges_that_throw() {
    {
        std::vector<std::unique_ptr<third_throws>> values;
        lockfree::stack<third_throws, lockfree::fixed_sized<true>> stack(8);
        for (long i = 1; i <= 4; ++i) values.push_back(std::make_unique<third_throws>(i));
        bool thrown = false;
        try {
            stack.push(reads{values.data()}, reads{values.data() + 4});
        } catch (const std::runtime_error &) {
            thrown = true;
        }
        CHECK(thrown && counted::alive == 4 && stack.empty());
        CHECK(stack.push(reads{values.data()}, reads{values.data() + 2}) == reads{values.data() + 2} && counted::alive == 6);
    }
    CHECK(counted::alive == 0);
}

void ranges_of_many_threads() {
    {
        lockfree::stack<counted, lockfree::fixed_sized<true>> stack(64);
        std::vector<std::atomic<int>> seen(sides * each);
        std::atomic<long> taken{0};
        std::vector<std::thread> threads;
        for (int side = 0; side < sides; ++side) {
            threads.emplace_back([&, side] {
                for (long first = side * each; first < (side + 1) * each; first += 5) {
                    const std::vector<counted> values = [&] {
                        std::vector<counted> five;
                        for (long i = first; i < first + 5; ++i) five.emplace_back(i);
                        return five;
                    }();
                    for (auto next = values.begin(); next != values.end(); next = stack.push(next, values.end()))
                        std::this_thread::yield();
                }
            });
            threads.emplace_back([&] {
                counted out;
                while (taken < sides * each) {
                    if (!stack.pop(out)) {
                        std::this_thread::yield();
                        continue;
                    }
                    CHECK(++seen[static_cast<std::size_t>(*out.number)] == 1);
                    ++taken;
                }
            });
        }
        for (auto &thread : threads) thread.join();
        CHECK(stack.empty() && taken == sides * each);
    }
    CHECK(counted::alive == 0);
}

template <template <class, class...> class Container> void all() {
    values_with_destructors<Container<counted, lockfree::fixed_sized<true>>>();
    for (const bool own_passes : {false, true}) {
        many_threads<Container<counted, lockfree::fixed_sized<true>>>(own_passes);
        CHECK(counted::alive == 0);
    }
    threads_come_and_go<Container<int, lockfree::fixed_sized<true>>>();
    containers_end<Container<int, lockfree::fixed_sized<true>>>();
    refusals<Container<int, lockfree::fixed_sized<true>>>();
    Container<std::string, lockfree::capacity<2>> texts;
    std::string out;
    CHECK(texts.push("a") && texts.bounded_push(std::string(100, 'b')) && !texts.push("c") && texts.pop(out));
}

}  // namespace

// How many values a queue or a ring holds, known from what was pushed and popped; and beside other threads never above its
// capacity.
template <class Container> void sizes() {
    Container queue(3);
    auto pass = queue.split();
    for (int round = 0; round < 5; ++round) {
        for (std::size_t held = 0; held < 3; ++held) CHECK(queue.size() == held && pass.size() == held && queue.push("a string that is no short one"));
        CHECK(!pass.push("refused") && queue.size() == 3);
        for (std::size_t held = 3; held > 0; --held) CHECK(pass.size() == held && pass.pop());
    }
    std::atomic<bool> ended{false};
    std::thread counts([&] {
        while (!ended) CHECK(queue.size() <= 3);
    });
    for (long i = 0; i < each; ++i) CHECK(pass.push("x") && pass.pop());
    ended = true;
    counts.join();
    const auto &unchanged = queue;
    CHECK(unchanged.size() == 0);
}

int main() {
    sizes<lockfree::bounded_queue<std::string>>();
    sizes<lockfree::ring_queue<std::string>>();
    all<lockfree::queue>();
    all<lockfree::stack>();
    all<lockfree::ring_queue>();
    folds_of_all_values();
    folds_that_call_their_stack();
    for (const bool reversed : {false, true}) folds_of_many_threads(reversed);
    ranges();
    ranges_that_throw();
    ranges_of_many_threads();
    std::puts("passed");
}
