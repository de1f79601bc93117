// The queue of one producer and one consumer: all calls of its ends, one after another, against a deque; and what becomes of
// values when functions of a user throw, pop, push or refuse to move.
#include "lockfree/blocking.hpp"
#include "check.hpp"

#include <algorithm>
#include <array>
#include <chrono>
#include <cstdint>
#include <deque>
#include <initializer_list>
#include <iterator>
#include <memory>
#include <random>
#include <sstream>
#include <stdexcept>
#include <string>
#include <thread>
#include <utility>
#include <vector>

namespace {

using lockfree::status;

struct small {  // 6 bytes of a word
    std::int32_t number;
    std::int16_t more;
};
struct large {
    std::array<long, 100> numbers;
};

template <class T> T made_of(long number) {
    if constexpr (std::is_same_v<T, std::string>) return std::string(30, 'x') + std::to_string(number);
    else if constexpr (std::is_same_v<T, std::unique_ptr<long>>) return std::make_unique<long>(number);
    else if constexpr (std::is_same_v<T, small>) return {static_cast<std::int32_t>(number), 7};
    else if constexpr (std::is_same_v<T, counted>) return counted(number);
    else if constexpr (std::is_same_v<T, large>) {
        large made{};
        made.numbers.fill(number);
        return made;
    } else return static_cast<T>(number);
}
template <class T> long number_of(const T &value) {
    if constexpr (std::is_same_v<T, std::string>) return std::stol(value.substr(30));
    else if constexpr (std::is_same_v<T, std::unique_ptr<long>>) return *value;
    else if constexpr (std::is_same_v<T, small>) return value.more == 7 ? value.number : -1;
    else if constexpr (std::is_same_v<T, counted>) return *value.number;
    else if constexpr (std::is_same_v<T, large>) {
        CHECK(std::count(value.numbers.begin(), value.numbers.end(), value.numbers[0]) == 100);
        return value.numbers[0];
    } else return static_cast<long>(value);
}

/// Calls of all kinds in an order of chance, and what a deque says of them.
template <class T> class random_calls {
public:
    explicit random_calls(std::size_t room) : queue(room), capacity(room) {}

    void run(int count) {
        CHECK(queue.capacity() == capacity && queue.is_lock_free() && !queue.is_closed());
        while (count-- > 0) {
            call();
            CHECK(queue.read_available() == model.size() && queue.size() == model.size());
            CHECK(queue.write_available() == capacity - model.size());
            CHECK(queue.empty() == model.empty() && queue.full() == (model.size() == capacity));
            const auto *const first = queue.try_front();
            CHECK(model.empty() ? !first : number_of<T>(*first) == model.front());
            if (first) CHECK(number_of<T>(queue.front()) == model.front());
        }
        CHECK(queue.close() && !queue.close() && queue.is_closed());
        T value = made_of<T>(next);
        CHECK(queue.try_push(std::move(value)) == status::closed && number_of<T>(value) == next);
        while (!model.empty()) pop();
        CHECK(queue.try_pop(value) == status::closed && !queue.try_pop());
    }

private:
    lockfree::spsc_queue<T> queue;
    const std::size_t capacity;
    std::deque<long> model;
    std::mt19937 chance{42};
    long next = 100;

    void call() {
        switch (chance() % 12) {
        case 0:
        case 1:
        case 2: push(); break;
        case 3: push_range(); break;
        case 4:
        case 5: pop(); break;
        case 6: pop_many(); break;
        case 7: pop_to_array(); break;
        case 8: consume_some(); break;
        case 9: consume_all(); break;
        case 10: push_array(); break;
        default: if (chance() % 8 == 0) reset();
        }
    }
    void push() {
        T value = made_of<T>(next);
        const bool fits = model.size() < capacity;
        bool done = false;
        switch (chance() % 4) {
        case 0: done = queue.push(std::move(value)); break;
        case 1: done = queue.try_push(std::move(value)) == (fits ? status::ok : status::full) && fits; break;
        case 2: done = queue.emplace(std::move(value)); break;
        default: {
            const status what = queue.push_wait(std::move(value), [] { return true; });
            CHECK(what == (fits ? status::ok : status::stopped));
            done = what == status::ok;
        }
        }
        CHECK(done == fits);
        if (done) model.push_back(next++);
        else CHECK(number_of<T>(value) == next);  // (it was moved back)
    }
    std::vector<T> some() {
        std::vector<T> values;
        for (std::size_t i = chance() % 70; i > 0; --i) values.push_back(made_of<T>(next + static_cast<long>(values.size())));
        return values;
    }
    void pushed(std::size_t count) {
        while (count-- > 0) model.push_back(next++);
    }
    void push_range() {
        std::vector<T> values = some();
        const std::size_t fit = std::min(values.size(), capacity - model.size());
        const auto result = queue.try_push(std::make_move_iterator(values.begin()), std::make_move_iterator(values.end()));
        CHECK(result.next.base() - values.begin() == static_cast<std::ptrdiff_t>(fit));
        CHECK(result.what == (fit == values.size() ? status::ok : status::full));
        for (std::size_t i = fit; i < values.size(); ++i) CHECK(number_of<T>(values[i]) == next + static_cast<long>(i));
        pushed(fit);
    }
    void push_array() {
        if constexpr (std::is_copy_constructible_v<T>) {
            const std::vector<T> values = some();
            const std::size_t fit = std::min(values.size(), capacity - model.size());
            if (chance() % 2) {
                CHECK(queue.push(values.data(), values.size()) == fit);
            } else {
                const lockfree::batch result = queue.try_push(values.data(), values.size());
                CHECK(result.count == fit && result.what == (fit == values.size() ? status::ok : status::full));
            }
            pushed(fit);
        }
    }
    void popped(const T &value) {
        CHECK(!model.empty() && number_of<T>(value) == model.front());
        model.pop_front();
    }
    void pop() {
        if (chance() % 2) {
            T value = made_of<T>(-1);
            const bool was_empty = model.empty();
            CHECK(queue.pop(value) != was_empty);
            if (was_empty) CHECK(number_of<T>(value) == -1);
            else popped(value);
        } else {
            const std::optional<T> value = chance() % 2 ? queue.pop() : queue.pop_wait_until([] { return true; });
            CHECK(value.has_value() != model.empty());
            if (value) popped(*value);
        }
    }
    void pop_many() {
        std::vector<T> values;
        const std::size_t most = chance() % 70, there = std::min(most, model.size());
        const lockfree::batch result = queue.try_pop(std::back_inserter(values), most);
        CHECK(result.count == there && values.size() == there && result.what == (there == most ? status::ok : status::empty));
        for (const T &value : values) popped(value);
    }
    void pop_to_array() {
        std::array<T, 40> values;
        std::size_t count = 0;
        if constexpr (std::is_default_constructible_v<T>) {
            switch (chance() % 3) {
            case 0: {
                T few[3];
                count = queue.pop(few);
                CHECK(count == std::min<std::size_t>(3, model.size()));
                std::move(few, few + count, values.begin());
                break;
            }
            case 1:
                if (model.size() <= values.size()) {
                    CHECK(queue.pop(values.begin()) == (count = model.size()));
                    break;
                }
                [[fallthrough]];
            default: CHECK((count = queue.pop(values.data(), values.size())) == std::min(values.size(), model.size()));
            }
        }
        for (std::size_t i = 0; i < count; ++i) popped(values[i]);
    }
    void consume_some() {
        CHECK(queue.consume_one([&](T &value) { popped(value); }) || model.empty());
        const bool was_empty = model.empty();
        CHECK(queue.try_consume_one([&](T &&value) { popped(value); }) == (was_empty ? status::empty : status::ok));
    }
    void consume_all() {
        const std::size_t there = model.size();
        const lockfree::batch result = queue.try_consume_all([&](const T &value) { popped(value); });
        CHECK(result.count == there && result.what == status::empty && model.empty());
    }
    void reset() {
        queue.reset();
        model.clear();
    }
};

using rooms = std::initializer_list<std::size_t>;
template <class T> void each_capacity() {
    for (const std::size_t room : rooms{1, 2, 3, 31, 32, 33, 100}) random_calls<T>(room).run(3000);
    CHECK(counted::alive == 0);
}

template <class Call> bool throws(Call &&call) {
    try {
        call();
    } catch (const std::runtime_error &) {
        return true;
    }
    return false;
}

/// Throws when it is made or moved, if it is to.
struct throwing {
    static inline int copies = -1, moves = -1, conversions = -1;  // so many more are made
    static inline long alive = 0;
    long number;
    std::unique_ptr<long> memory;
    static void count(int &left) {
        if (left >= 0 && left-- == 0) throw std::runtime_error("throwing");
    }
    throwing(long n) : number((count(conversions), n)), memory(new long(n)) { ++alive; }
    throwing(const throwing &other) : number((count(copies), other.number)), memory(new long(number)) { ++alive; }
    throwing(throwing &&other) : number((count(moves), other.number)), memory(std::move(other.memory)) { ++alive; }
    throwing &operator=(throwing &&other) {
        count(moves);
        number = other.number;
        memory = std::move(other.memory);
        return *this;
    }
    ~throwing() { --alive; }
};

/// Each constructor that throws: nothing is pushed, and all that was pushed is there.
void values_throw() {
    for (const std::size_t room : rooms{1, 2, 5}) {
        {
            lockfree::spsc_queue<throwing> queue(room);
            for (int round = 0; round < 20; ++round) {  // each cell
                const throwing value(round);
                throwing::copies = 0;
                CHECK(throws([&] { queue.push(value); }) && queue.empty());
                throwing::conversions = 0;
                CHECK(throws([&] { queue.emplace(7); }) && queue.empty());
                throwing moved(round);
                throwing::moves = 0;
                CHECK(throws([&] { queue.push(std::move(moved)); }) && queue.empty() && *moved.memory == round);
                throwing::copies = throwing::moves = throwing::conversions = -1;
                CHECK(queue.push(value) && queue.read_available() == 1);
                throwing to(-1);
                throwing::moves = 0;
                CHECK(throws([&] { queue.pop(to); }) && queue.empty());  // it is lost, and its slot is free
                throwing::moves = -1;
                for (std::size_t i = 0; i < room; ++i) CHECK(queue.emplace(round));
                throwing::moves = 0;
                CHECK(throws([&] { (void)queue.pop(); }) && queue.read_available() == room - 1);
                throwing::moves = -1;
                CHECK(queue.consume_all([](throwing &) {}) == room - 1);
            }
            for (std::size_t i = 0; i < room; ++i) CHECK(queue.emplace(1));  // left
        }
        CHECK(throwing::alive == 0);
    }
}

/// A range that throws in the middle: what was made before is pushed.
void ranges_throw() {
    const std::vector<long> numbers{1, 2, 3, 4, 5, 6};
    for (int fine = 0; fine < 6; ++fine) {
        lockfree::spsc_queue<throwing> queue(4);
        throwing::conversions = fine;
        CHECK(throws([&] { queue.push(numbers.begin(), numbers.end()); }) == (fine < 4));
        throwing::conversions = -1;
        long next = 1;
        CHECK(queue.consume_all([&](throwing &value) { CHECK(value.number == next++); }) == static_cast<std::size_t>(std::min(fine, 4)));
    }
    struct number {  // a word, whose conversion throws
        long of = 0;
        number() = default;
        number(const throwing &from) : of(from.number) { throwing::count(throwing::copies); }
    };
    std::vector<throwing> from;
    for (const long each : numbers) from.emplace_back(each);
    lockfree::spsc_queue<number> words(10);
    throwing::copies = 3;
    CHECK(throws([&] { words.push(from.begin(), from.end()); }) && words.read_available() == 3);
    throwing::copies = -1;
    CHECK(words.pop()->of == 1 && words.pop()->of == 2 && words.pop()->of == 3 && words.empty());
}

/// A range that can be read once: nothing is read that is not pushed.
void ranges_are_read_once() {
    std::istringstream text("1 2 3 4 5");
    lockfree::spsc_queue<int> words(2);
    lockfree::spsc_queue<std::string> strings(2);
    using numbers = std::istream_iterator<int>;
    numbers next = words.push(numbers(text), numbers());
    CHECK(*next == 3 && words.pop() == 1 && words.pop() == 2);
    using lines = std::istream_iterator<std::string>;
    lines rest = strings.push(lines(text), lines());
    CHECK(rest == lines() && strings.pop() == "4" && strings.pop() == "5" && !strings.pop());  // (the text ends there)
}

/// What functions of consume_one and consume_all do: throw, pop, push.
void functions() {
    for (const std::size_t room : rooms{1, 2, 3, 40}) {
        lockfree::spsc_queue<counted> queue(room);
        for (int round = 0; round < 50; ++round) {
            for (std::size_t i = 0; i < room; ++i) CHECK(queue.push(counted(static_cast<long>(i))));
            CHECK(throws([&] {
                queue.consume_one([&](counted &value) {
                    CHECK(*value.number == 0 && queue.write_available() == 1);
                    throw std::runtime_error("first");
                });
            }));
            CHECK(counted::alive == static_cast<long>(room) - 1 && queue.read_available() == room - 1);
            std::size_t seen = 0;
            if (room > 2) {
                CHECK(throws([&] {
                    queue.consume_all([&](counted &) {
                        if (++seen == 2) throw std::runtime_error("second");
                    });
                }));
                CHECK(queue.read_available() == room - 3 && queue.write_available() == 3);
            }
            CHECK(queue.consume_all([](counted &) {}) == (room > 2 ? room - 3 : room - 1));
            CHECK(counted::alive == 0 && queue.write_available() == room);
        }
    }
}
void functions_pop() {
    for (const std::size_t room : rooms{2, 3, 4, 70}) {
        lockfree::spsc_queue<counted> queue(room);
        long next = 0, sum = 0;
        for (int round = 0; round < 50; ++round) {
            while (queue.push(counted(next))) ++next;
            const long first = next - static_cast<long>(room);
            // It pops all others, and pushes: its own value stays, though the queue is as full as can be.
            CHECK(queue.consume_one([&](counted &value) {
                CHECK(*value.number == first);
                counted other;
                CHECK(queue.pop(other) && *other.number == first + 1);
                if (room > 2) CHECK(*queue.try_pop()->number == first + 2);
                CHECK(queue.push(counted(next)));
                ++next;
                CHECK(!queue.push(counted(-1)));  // what it popped gives no slot until it ends
                CHECK(queue.consume_all([&](counted &more) { sum += *more.number; }) == room - (room > 2 ? 3 : 2) + 1);
                CHECK(queue.empty() && !queue.try_front() && !queue.pop() && *value.number == first);
            }));
            CHECK(queue.empty() && queue.write_available() == room && counted::alive == 0);
            // The same of consume_all, of which nested calls take every second value.
            const long begin = next;
            while (queue.push(counted(next))) ++next;
            long at = begin;
            const std::size_t outer = queue.consume_all([&](counted &value) {
                CHECK(*value.number == at++);
                queue.consume_one([&](counted &inner) { CHECK(*inner.number == at++); });
            });
            CHECK(at == next && outer == (room + 1) / 2 && queue.empty() && queue.write_available() == room && counted::alive == 0);
        }
    }
}

/// Pushes by the queue while it is made.
struct pushes_when_made {
    static inline lockfree::spsc_queue<pushes_when_made> *to = nullptr;
    static inline status said = status::ok;
    std::string text;
    explicit pushes_when_made(const char *of, bool more = true) : text(of) {
        if (more) said = to->try_emplace("inner", false);
    }
};
void constructors_push() {
    lockfree::spsc_queue<pushes_when_made> queue(2);
    pushes_when_made::to = &queue;
    CHECK(queue.emplace("outer") && pushes_when_made::said == status::full && queue.read_available() == 1);
    CHECK(queue.front().text == "outer");
    pushes_when_made::said = status::ok;
    const char *const more[] = {"second"};
    CHECK(queue.push(more, more + 1) == more + 1 && pushes_when_made::said == status::full && queue.read_available() == 2);
    CHECK(queue.pop()->text == "outer" && queue.pop()->text == "second");
    struct pushes_a_range {
        std::string text{"more"};
        explicit pushes_a_range(lockfree::spsc_queue<pushes_a_range> *to) {
            lockfree::spsc_queue<pushes_a_range> *const more[] = {nullptr};
            if (to) CHECK(to->push(more, more + 1) == more && to->emplace_wait(nullptr) == status::stopped);
        }
    };
    lockfree::spsc_queue<pushes_a_range> ranges(3);
    CHECK(ranges.emplace(&ranges) && ranges.read_available() == 1);
}

/// Words whose conversion pushes another one: both go in, and none is lost if there are slots for a part.
struct pushes_a_word {
    static inline lockfree::spsc_queue<pushes_a_word> *to = nullptr;
    int number;
    explicit pushes_a_word(int n) : number(n) {
        if (n < 10) to->emplace(n + 10);
    }
};
void conversions_push() {
    lockfree::spsc_queue<pushes_a_word> queue(4);
    pushes_a_word::to = &queue;
    const int numbers[] = {1, 2, 3};
    CHECK(queue.push(numbers, numbers + 3) == numbers + 1);
    for (const int number : {11, 12, 13, 1}) CHECK(queue.pop()->number == number);
    std::istringstream text("1 2 3");
    using read = std::istream_iterator<int>;
    CHECK(*queue.push(read(text), read()) == 3);
    for (const int number : {11, 1, 12, 2}) CHECK(queue.pop()->number == number);
    CHECK(queue.empty());
}

/// A reference of `front` stays valid while the producer pushes as far as it can, and one of a cell may be changed.
void fronts() {
    lockfree::spsc_queue<std::string> queue(2);
    for (int round = 0; round < 10; ++round) {
        CHECK(queue.push(std::string(40, 'a')) && queue.push(std::string(40, 'b')));
        std::string &first = queue.front();
        CHECK(!queue.push(std::string(40, 'c')) && first == std::string(40, 'a'));
        first = "changed";
        CHECK(queue.pop() == "changed" && queue.front() == std::string(40, 'b') && queue.consume_one([](std::string &) {}));
    }
    const lockfree::spsc_queue<int> empty(1);
    CHECK(!empty.try_front() && empty.empty() && empty.read_available() == 0 && empty.write_available() == 1);
    static_assert(std::is_same_v<decltype(std::declval<lockfree::spsc_queue<int> &>().front()), const int &>);
    static_assert(std::is_same_v<decltype(std::declval<lockfree::spsc_queue<std::string> &>().front()), std::string &>);
}

/// Values that are left, and an end that leaves before the other one.
void ends_leave() {
    {
        lockfree::spsc_queue<counted> queue(5);
        for (int i = 0; i < 8; ++i) queue.push(counted(i));
        CHECK(counted::alive == 5);
    }
    CHECK(counted::alive == 0);
    {
        auto [producer, consumer] = lockfree::spsc<counted>(3);
        CHECK(producer && consumer && producer.capacity() == 3 && consumer.capacity() == 3);
        CHECK(producer.push(counted(1)) && producer.push(counted(2)));
        consumer = {};  // destroys what is there
        CHECK(counted::alive == 0 && !consumer && producer.is_closed() && consumer.capacity() == 0);
        for (long i = 0; i < 3; ++i) CHECK(producer.push(counted(i)));  // slots are free still
        counted kept(4);
        CHECK(producer.try_push(std::move(kept)) == status::closed && *kept.number == 4 && counted::alive == 4);
        CHECK(producer.push_wait(counted(5)) == status::closed && consumer.try_pop(kept) == status::closed);
    }
    CHECK(counted::alive == 0);
    {
        auto [producer, consumer] = lockfree::spsc<counted>(3);
        CHECK(producer.push(counted(1)) && producer.push(counted(2)) && !consumer.is_closed());
        auto other = std::move(producer);
        CHECK(!producer && producer.try_push(counted(0)) == status::closed && producer.write_available() == 0 && producer.is_closed());
        CHECK(other.push(counted(3)) && other.full() && other.close() && other.write_available() == 0);
        other = {};
        CHECK(consumer.is_closed() && consumer.size() == 3);
        long next = 1;
        CHECK(consumer.consume_all([&](counted &value) { CHECK(*value.number == next++); }) == 3);
        counted to(9);
        CHECK(consumer.try_pop(to) == status::closed && consumer.pop_wait(to) == status::closed && *to.number == 9);
        CHECK(consumer.try_consume_all([](counted &) {}).what == status::closed && consumer.try_pop(&to, 1).what == status::closed);
        CHECK(producer.try_emplace(1) == status::closed);  // (empty ends say so, too)
        lockfree::spsc_consumer<counted> none, taken(std::move(consumer));
        none.swap(taken);
        CHECK(!taken && none && none.is_closed() && taken.try_front() == nullptr && taken.empty() && taken.is_closed());
        taken.reset();
    }
    CHECK(counted::alive == 0);
    auto words = lockfree::spsc<long>(2);
    CHECK(words.producer.push(1) && words.producer.close() && words.consumer.pop_wait() == 1 && !words.consumer.pop_wait());
    CHECK(!words.producer.close() && words.producer.try_close() == status::closed);
    long more[2] = {1, 2};
    CHECK(words.producer.push(more) == 0 && words.producer.try_push(more, 2).what == status::closed && words.consumer.pop(more) == 0);
}

void waits_end() {
    using namespace std::chrono_literals;
    lockfree::spsc_queue<std::string> queue(1);
    std::string to;
    CHECK(queue.pop_wait(to, 1ms) == status::stopped && !queue.pop_wait_until(std::chrono::steady_clock::now()));
    CHECK(queue.push_wait("one") == status::ok && queue.push_wait("two", 1ms) == status::stopped);
    std::string kept(40, 'k');
    int asked = 0;
    CHECK(queue.push_wait(std::move(kept), [&] { return ++asked == 3; }) == status::stopped && kept == std::string(40, 'k') && asked == 3);
    CHECK(throws([&] { (void)queue.push_wait(std::move(kept), []() -> bool { throw std::runtime_error("stop"); }); }));
    CHECK(kept == std::string(40, 'k') && queue.read_available() == 1);
    // A stop that makes room, and one that pushes.
    CHECK(queue.push_wait("three", [&] { return !queue.pop(to); }) == status::ok && to == "one");
    CHECK(queue.pop_wait(to) == status::ok && to == "three");
    CHECK(queue.pop_wait(to, [&] { return !queue.push("four"); }) == status::ok && to == "four");
    std::string some[3];
    CHECK(queue.push("five") && queue.pop_wait(some, 3).count == 1 && some[0] == "five");
    CHECK(queue.pop_wait(some, 3, 1ms).what == status::stopped && queue.pop_wait(some, 0).what == status::ok);
    CHECK(queue.emplace_wait(3, 'x') == status::ok && queue.emplace_wait_until(1ms, "y") == status::stopped && queue.close());
    CHECK(queue.emplace_wait("z") == status::closed && queue.pop_wait() == "xxx" && queue.pop_wait(some, 3).what == status::closed);
}

/// Ends that go from thread to thread, with one value or more in each.
template <class T> void ends_move() {
    auto ends = lockfree::spsc<T>(3);
    for (long round = 0; round < 20; ++round) {
        std::thread([&, producer = std::move(ends.producer)]() mutable {
            CHECK(producer.push(made_of<T>(2 * round)) && producer.push(made_of<T>(2 * round + 1)));
            ends.producer = std::move(producer);
        }).join();
        std::thread([&, consumer = std::move(ends.consumer)]() mutable {
            for (long i = 0; i < 2; ++i) CHECK(number_of<T>(*consumer.pop()) == 2 * round + i);
            CHECK(!consumer.pop());
            ends.consumer = std::move(consumer);
        }).join();
    }
}

template <class T> void blocks() {
    const auto queue = lockfree::make<lockfree::blocking<lockfree::spsc_queue<T>>>(2);
    std::thread producer([&] {
        for (long i = 0; i < 1000; ++i) CHECK(queue->push_wait(made_of<T>(i)) == status::ok);
        queue->close();
    });
    long next = 0;
    while (auto value = queue->pop_wait()) CHECK(number_of<T>(*value) == next++);
    producer.join();
    CHECK(next == 1000 && queue->try_push(made_of<T>(0)) == status::closed);
    std::vector<T> values;
    CHECK(queue->pop_wait(std::back_inserter(values), 3).what == status::closed && queue->container().capacity() == 2);
}

/// A message that has the end by which it is answered: an end of a type that is not complete.
struct message {
    std::unique_ptr<lockfree::spsc_producer<message>> answers;
    int number = 0;
};
void messages_answer() {
    auto requests = lockfree::spsc<message>(1);
    auto answers = lockfree::spsc<message>(1);
    CHECK(requests.producer.push({std::make_unique<lockfree::spsc_producer<message>>(std::move(answers.producer)), 1}));
    CHECK(requests.consumer.consume_one([](message &request) { CHECK(request.answers->push({nullptr, request.number + 1})); }));
    CHECK(answers.consumer.pop_wait()->number == 2 && !answers.consumer.pop_wait());  // its producer ended with the request
}

void capacities() {
    lockfree::spsc_queue<int, lockfree::capacity<7>> fixed;
    lockfree::spsc_queue<std::string, lockfree::fixed_sized<true>> strings(7);
    int pushed = 0;
    while (fixed.push(pushed)) ++pushed;
    CHECK(pushed == 7 && fixed.capacity() == 7 && strings.capacity() == 7);
    for (const std::size_t room : rooms{0, std::size_t{1} << 32}) {
        bool thrown = false;
        try {
            lockfree::spsc_queue<char> none(room);
        } catch (const std::invalid_argument &) {
            thrown = true;
        }
        CHECK(thrown && !lockfree::make<lockfree::spsc_queue<char>>(room) && !lockfree::try_spsc<std::string>(room).producer);
    }
    const auto made = lockfree::make<lockfree::spsc_queue<std::string, lockfree::capacity<3>>>();
    CHECK(made && made->capacity() == 3 && made->push("one") && made->pop() == "one");
    auto [producer, consumer] = lockfree::try_spsc<std::string>(4);
    CHECK(producer.capacity() == 4 && producer.push("two") && consumer.pop() == "two");
}

}  // namespace

int main() {
    each_capacity<int>();
    each_capacity<long>();
    each_capacity<std::uint64_t>();
    each_capacity<double>();
    each_capacity<small>();
    each_capacity<std::string>();
    each_capacity<std::unique_ptr<long>>();
    each_capacity<counted>();
    each_capacity<large>();
    values_throw();
    ranges_throw();
    ranges_are_read_once();
    functions();
    functions_pop();
    constructors_push();
    conversions_push();
    fronts();
    ends_leave();
    waits_end();
    ends_move<long>();
    ends_move<std::string>();
    blocks<long>();
    blocks<std::string>();
    messages_answer();
    capacities();
    std::puts("passed");
}
