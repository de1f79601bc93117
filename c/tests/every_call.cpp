// Each call of each container, pass and `blocking`, with each way in which a value is kept, as a user's file has them. It is
// compiled with all warnings as errors (tests/c). The program that it makes calls a part of them, and says that it has passed.
#include "check.hpp"

#include <lockfree.hpp>
#include <lockfree/blocking.hpp>
#include <lockfree_boost.hpp>

#include <array>
#include <chrono>
#include <cstddef>
#include <cstdint>
#include <iterator>
#include <list>
#include <memory>
#include <optional>
#include <sstream>
#include <string>
#include <utility>
#include <vector>

namespace {

using std::chrono::milliseconds;
using std::chrono::steady_clock;

/// Ways to keep a value: in its word, in a word with padding, in a cell, in a cell that only moves, in memory of its own.
struct padded {
    std::uint16_t first;
    std::uint8_t second;
};
struct large {
    std::array<std::uint64_t, 200> words;
};

template <class T> struct sample;
template <> struct sample<int> {
    static int make() { return 7; }
};
template <> struct sample<std::uint64_t> {
    static std::uint64_t make() { return 7; }
};
template <> struct sample<padded> {
    static padded make() { return {7, 8}; }
};
template <> struct sample<std::string> {
    static std::string make() { return std::string(40, 'x'); }
};
template <> struct sample<std::unique_ptr<int>> {
    static std::unique_ptr<int> make() { return std::make_unique<int>(7); }
};
template <> struct sample<large> {
    static large make() { return {}; }
};

template <class T> constexpr bool copies = std::is_copy_constructible_v<T>;

struct hears {
    std::size_t &count;
    template <class T> void operator()(T &&) const { ++count; }
};

/// The calls with one value, of a container, a pass or a `blocking`. (All three have those that begin with try_, and waits.)
template <class By, class T = typename By::value_type> std::size_t calls_with_status(By &by) {
    std::size_t count = 0;
    const auto made = [&](lockfree::status what) { count += what == lockfree::status::ok; };
    T out = sample<T>::make();
    T in = sample<T>::make();
    made(by.try_push(std::move(in)));
    made(by.try_emplace(sample<T>::make()));
    made(by.push_wait(sample<T>::make()));
    made(by.push_wait(sample<T>::make(), milliseconds(1)));
    made(by.push_wait(sample<T>::make(), steady_clock::now()));
    made(by.push_wait(sample<T>::make(), [] { return true; }));
    if constexpr (copies<T>) {
        const T value = sample<T>::make();
        made(by.try_push(value));
        made(by.push_wait(value));
        made(by.push_wait(value, milliseconds(1)));
        made(by.push_wait(value, steady_clock::now()));
    }
    made(by.try_pop(out));
    made(by.pop_wait(out));
    made(by.pop_wait(out, milliseconds(1)));
    made(by.pop_wait(out, steady_clock::now()));
    made(by.pop_wait(out, [] { return true; }));
    made(by.emplace_wait(sample<T>::make()));
    made(by.emplace_wait_until(milliseconds(1), sample<T>::make()));
    made(by.try_consume_one(hears{count}));
    count += by.try_pop().has_value();
    count += by.pop_wait().has_value();
    count += by.pop_wait_until(milliseconds(1)).has_value();
    std::array<T, 2> some{sample<T>::make(), sample<T>::make()};
    made(by.try_push(std::make_move_iterator(some.begin()), std::make_move_iterator(some.end())).what);
    if constexpr (copies<T>) made(by.try_push_range(some).what);
    count += by.try_pop(some.begin(), 1).count;
    count += by.pop_wait(some.begin(), 1).count;
    count += by.pop_wait(some.begin(), 1, milliseconds(1)).count;
    count += by.try_consume_all([](const T &) {}).count;
    return count;
}

template <class By, class T = typename By::value_type> std::size_t calls_with_one(By &by) {
    std::size_t count = calls_with_status(by);
    T out = sample<T>::make();
    std::optional<T> maybe;
    count += by.push(sample<T>::make());
    count += by.bounded_push(sample<T>::make());
    count += by.emplace(sample<T>::make());
    if constexpr (copies<T>) {
        const T value = sample<T>::make();
        count += by.push(value);
        count += by.bounded_push(value);
    }
    count += by.pop(out);
    count += by.pop(maybe);
    count += by.pop().has_value();
    count += by.pop(lockfree::uses_optional).has_value();
    count += by.consume_one([](T &) {});
    count += by.consume_one([](T &&) {});
    count += by.consume_all(hears{count});
    return count;
}

template <class By, class T = typename By::value_type> std::size_t calls_with_many(By &by) {
    std::array<T, 4> some{sample<T>::make(), sample<T>::make(), sample<T>::make(), sample<T>::make()};
    std::list<T> out;
    std::size_t count = 0;
    count += by.push(std::make_move_iterator(some.begin()), std::make_move_iterator(some.end())) !=
             std::make_move_iterator(some.begin());
    count += by.try_push(std::make_move_iterator(some.begin()), std::make_move_iterator(some.begin())).what ==
             lockfree::status::ok;
    if constexpr (copies<T>) {
        count += by.push(some.begin(), some.end()) != some.begin();
        count += by.bounded_push(some.cbegin(), some.cend()) != some.cbegin();
        count += by.push_range(some) != some.begin();
        count += by.try_push(some.data(), some.data() + some.size()).next != some.data();
    }
    count += by.pop(std::back_inserter(out), 2);
    count += by.try_pop(some.begin(), some.size()).count;
    return count;
}

template <class By> double gauges(By &by) {
    bool holds = false;
    std::size_t number = 0;
    double part = 0;
    const auto answered = [](lockfree::status what) { CHECK(what == lockfree::status::ok); };
    answered(by.try_empty(holds));
    answered(by.try_full(holds));
    answered(by.try_is_closed(holds));
    answered(by.try_size(number));
    answered(by.try_wear(part));
    holds = by.empty() || by.full() || by.is_closed() || by.is_lock_free() || By::is_always_lock_free;
    return by.wear() + part + static_cast<double>(by.size() + by.capacity() + number) + (holds ? 1 : 0);
}

template <class By> void ends(By &by) {
    CHECK(by.close() && by.try_close() == lockfree::status::closed);
    CHECK(by.shut() && by.try_shut() == lockfree::status::shut);
}

/// What was ended before.
template <class By> void ends_too(By &by) {
    CHECK(!by.close() && !by.shut());
}

template <class By> std::size_t folds(By &by) {
    std::size_t count = 0;
    count += by.consume_all_atomic(hears{count});
    count += by.consume_all_atomic_reversed(hears{count});
    count += by.try_consume_all_atomic(hears{count}).count;
    count += by.try_consume_all_atomic_reversed(hears{count}).count;
    return count;
}

template <class Container> void calls_of(Container &of) {
    using T = typename Container::value_type;
    typename Container::pass by = of.split();
    typename Container::pass other = of.try_split();
    other = std::move(by);
    other.swap(by);
    CHECK(by && calls_with_one(of) > 0 && calls_with_one(by) > 0);
    CHECK(calls_with_many(of) > 0 && calls_with_many(by) > 0);
    CHECK(gauges(of) > 0 && gauges(by) > 0);
    CHECK(of.unsynchronized_push(sample<T>::make()));
    T out = sample<T>::make();
    CHECK(of.unsynchronized_pop(out));
    if constexpr (std::is_base_of_v<lockfree::bounded_stack<T>, Container>) {
        CHECK(of.push(sample<T>::make()) && folds(of) > 0);
        CHECK(by.push(sample<T>::make()) && folds(by) > 0);
    }
    ends(by);
    of.leave();
}

template <class Container> void of_blocking() {
    using T = typename Container::value_type;
    lockfree::blocking<Container> waits(64);
    typename lockfree::blocking<Container>::pass by = waits.split(), other = waits.try_split();
    by = std::move(other);
    CHECK(calls_with_status(waits) > 0 && calls_with_status(by) > 0 && waits.container().capacity() == 64);
    CHECK(by && by.pass().capacity() == 64);
    if constexpr (std::is_base_of_v<lockfree::bounded_stack<T>, Container>) {
        CHECK(waits.try_consume_all_atomic([](T &) {}).what == lockfree::status::ok);
        CHECK(by.try_consume_all_atomic_reversed([](T &&) {}).what == lockfree::status::ok);
    }
    ends(waits);
    ends_too(by);
    waits.leave();
    const auto made = lockfree::make<lockfree::blocking<Container>>(64);
    CHECK(made && made->try_push(sample<T>::make()) == lockfree::status::ok);
}

template <class Container> void of_kind() {
    using T = typename Container::value_type;
    Container of(64);
    calls_of(of);
    of_blocking<Container>();
    std::size_t count = 0;
    const auto made = lockfree::make<Container>(64);
    CHECK(made && made->push(sample<T>::make()) && made->finish(hears{count}) == lockfree::status::ok && count == 1);
}

/// What the producer of an spsc_queue has besides, and what the consumer has.
template <class By, class T = typename By::value_type> std::size_t calls_of_producer(By &by) {
    std::array<T, 3> some{sample<T>::make(), sample<T>::make(), sample<T>::make()};
    std::size_t count = by.write_available() + by.capacity();
    count += by.full() || by.is_lock_free() || By::is_always_lock_free;
    count += by.push(sample<T>::make());
    count += by.emplace(sample<T>::make());
    count += by.push(std::make_move_iterator(some.begin()), std::make_move_iterator(some.end())).base() == some.end();
    if constexpr (copies<T>) {
        const T more[2] = {sample<T>::make(), sample<T>::make()};
        std::list<T> rest(some.begin(), some.end());
        count += by.push(some[0]);
        count += by.push(more) + by.push(more, 1) + by.try_push(more, 2).count;
        count += by.push(rest.begin(), rest.end()) == rest.end();
        count += by.push_range(rest) == rest.end();
        count += by.try_push_range(rest).what == lockfree::status::ok;
    }
    return count + (lockfree::spsc_producer<T>() ? 1 : 0);
}
template <class By, class T = typename By::value_type> std::size_t calls_of_consumer(By &by) {
    T out = sample<T>::make();
    T few[2] = {sample<T>::make(), sample<T>::make()};
    std::optional<T> maybe;
    std::list<T> list;
    std::size_t count = by.read_available() + by.size() + by.capacity();
    count += by.empty() || by.is_closed() || by.is_lock_free() || by.try_front() == &by.front();
    count += by.pop(out);
    count += by.pop(maybe);
    count += by.pop().has_value();
    count += by.pop(lockfree::uses_optional).has_value();
    count += by.pop(few) + by.pop(few, 1) + by.pop(std::back_inserter(list), 1) + by.try_pop(few, 2).count;
    count += by.consume_one(hears{count});
    count += by.consume_one([](T &&) {});
    count += by.pop(std::back_inserter(list)) + by.pop(&few[0]);
    by.reset();
    return count + by.consume_all([](const T &) {}) + (lockfree::spsc_consumer<T>() ? 1 : 0);
}
template <class T> void of_spsc() {
    lockfree::spsc_queue<T> queue(64);
    lockfree::spsc_queue<T, lockfree::capacity<64>> fixed;
    CHECK(calls_with_status(queue) > 0 && calls_of_producer(queue) > 0 && calls_of_consumer(queue) > 0);
    auto [producer, consumer] = lockfree::spsc<T>(64);
    auto none = lockfree::try_spsc<T>(0);
    none.producer.swap(producer);
    none.consumer = std::move(consumer);
    CHECK(!producer && none.producer && calls_of_producer(none.producer) > 0 && !none.producer.is_closed());
    CHECK(calls_of_consumer(none.consumer) > 0 && none.producer.close() && none.producer.try_close() == lockfree::status::closed);
    lockfree::blocking<lockfree::spsc_queue<T>> waits(64);
    CHECK(calls_with_status(waits) > 0 && waits.close() && fixed.close());
    const auto made = lockfree::make<lockfree::spsc_queue<T, lockfree::capacity<8>>>();
    CHECK(made && made->push(sample<T>::make()));
    boost::lockfree::spsc_queue<T, boost::lockfree::capacity<8>> boosts;
    CHECK(boosts.push(sample<T>::make()) && boosts.pop() && !boosts.pop());
}

/// The types of passes have names, also while the type of a value is not complete.
struct question {
    lockfree::queue_pass<question> to_queue;
    lockfree::stack_pass<question> to_stack;
    lockfree::ring_pass<question> to_ring;
};

void with_limits() {
    lockfree::bounded_queue<question> questions(8);
    question one;
    one.to_queue = questions.split();
    CHECK(questions.push(std::move(one)) && questions.pop().value().to_queue);
    lockfree::ring_queue<int> ring(64, lockfree::pass_limit{4}, lockfree::lap_limit{100});
    lockfree::ring_queue<int, lockfree::capacity<8>> small(lockfree::lap_limit{100}, lockfree::pass_limit{4});
    lockfree::bounded_queue<int> queue(64, lockfree::tag_limit{100});
    lockfree::bounded_stack<std::string> stack(64, lockfree::tag_limit{100});
    boost::lockfree::queue<int, boost::lockfree::fixed_sized<true>> boosts(8);
    boost::lockfree::stack<int, boost::lockfree::capacity<8>> boosts_too;
    std::istringstream numbers("1 2 3");
    const std::istream_iterator<int> first(numbers), last;
    CHECK(queue.push(first, last) == last && ring.push(1) && small.push(2) && boosts.push(3) && boosts_too.push(4));
    CHECK(stack.emplace(40U, 'x') && stack.pop() == std::string(40, 'x'));
    CHECK(std::string(lockfree::to_string(ring.try_push(5))) == "ok");
}

}  // namespace

int main() {
    of_kind<lockfree::bounded_queue<int>>();
    of_kind<lockfree::bounded_queue<std::unique_ptr<int>>>();
    of_kind<lockfree::bounded_stack<padded>>();
    of_kind<lockfree::bounded_stack<std::string>>();
    of_kind<lockfree::ring_queue<int>>();
    of_kind<lockfree::ring_queue<large>>();
    of_spsc<int>();
    of_spsc<std::uint64_t>();
    of_spsc<padded>();
    of_spsc<std::string>();
    of_spsc<std::unique_ptr<int>>();
    of_spsc<large>();
    with_limits();
    std::puts("passed");
}
