// Two threads, one at each end of an spsc_queue: each value comes out once, whole and in order, whatever calls the two make, and
// what the producer wrote before a push is seen by who pops the value. Ends by itself: the producer pushes so many values.
#include "lockfree.hpp"
#include "check.hpp"

#include <algorithm>
#include <array>
#include <cstddef>
#include <cstdint>
#include <cstdlib>
#include <initializer_list>
#include <iterator>
#include <memory>
#include <string>
#include <thread>
#include <utility>
#include <vector>

namespace {

using lockfree::status;

struct block {
    std::array<long, 24> numbers;
};

template <class T> T made_of(long number) {
    if constexpr (std::is_same_v<T, std::string>) return std::string(30, 'x') + std::to_string(number);
    else if constexpr (std::is_same_v<T, std::unique_ptr<long>>) return std::make_unique<long>(number);
    else if constexpr (std::is_same_v<T, counted>) return counted(number);
    else if constexpr (std::is_same_v<T, block>) {
        block made{};
        made.numbers.fill(number);
        return made;
    } else return static_cast<T>(number);
}
template <class T> bool is_number(const T &value, long number) {
    if constexpr (std::is_same_v<T, std::string>) return value.size() > 30 && std::stol(value.substr(30)) == number;
    else if constexpr (std::is_same_v<T, std::unique_ptr<long>>) return value && *value == number;
    else if constexpr (std::is_same_v<T, counted>) return value.number && *value.number == number;
    else if constexpr (std::is_same_v<T, block>) {
        for (const long each : value.numbers)
            if (each != number) return false;
        return true;
    } else return value == static_cast<T>(number);
}

/// Pushes the values 0 to `count` - 1 by calls of all kinds, one kind after another.
template <class T> void produce(lockfree::spsc_producer<T> producer, long count, std::vector<long> &beside) {
    for (long next = 0; next < count;) {
        for (long i = next; i < std::min(count, next + 40); ++i) beside[static_cast<std::size_t>(i)] = i;  // (plain writes)
        const long begin = next;
        switch (next / 16 % 4) {
        case 0: {
            T value = made_of<T>(next);
            if (producer.push(std::move(value))) ++next;
            else CHECK(is_number(value, next));
            break;
        }
        case 1: {
            std::vector<T> some;
            for (long i = next; i < std::min(count, next + 40); ++i) some.push_back(made_of<T>(i));
            const auto rest = producer.push(std::make_move_iterator(some.begin()), std::make_move_iterator(some.end()));
            next += rest.base() - some.begin();
            break;
        }
        case 2: CHECK(producer.emplace_wait(made_of<T>(next)) == status::ok && ++next); break;
        default:
            if (producer.write_available() > 0) CHECK(producer.emplace(made_of<T>(next)) && ++next);
        }
        if (next == begin) std::this_thread::yield();
    }
}  // (it leaves)

/// Pops them, until they are closed.
template <class T> long consume(lockfree::spsc_consumer<T> consumer, const std::vector<long> &beside) {
    long next = 0;
    const auto is_next = [&](const T &value) {
        CHECK(beside[static_cast<std::size_t>(next)] == next && is_number(value, next));
        ++next;
    };
    for (;;) {
        const long begin = next;
        switch (next / 16 % 5) {
        case 0:
            if (const auto value = consumer.pop()) is_next(*value);
            break;
        case 1: consumer.consume_one(is_next); break;
        case 2: consumer.consume_all(is_next); break;
        case 3: {
            std::vector<T> some;
            consumer.pop(std::back_inserter(some), 20);
            for (const T &value : some) is_next(value);
            break;
        }
        default:
            if (consumer.read_available() > 0) {
                const T *const first = consumer.try_front();
                CHECK(first && is_number(*first, next));
                consumer.consume_one([&](T &value) {
                    is_next(value);
                    consumer.consume_one(is_next);  // in the function
                });
            }
        }
        if (next != begin) continue;
        if (consumer.is_closed() && consumer.empty()) return next;
        std::this_thread::yield();
    }
}

template <class T> void both(std::size_t room, long count) {
    auto [producer, consumer] = lockfree::spsc<T>(room);
    std::vector<long> beside(static_cast<std::size_t>(count), -1);
    std::thread pushes([&, end = std::move(producer)]() mutable { produce<T>(std::move(end), count, beside); });
    CHECK(consume<T>(std::move(consumer), beside) == count);
    pushes.join();
    CHECK(counted::alive == 0);
}

/// The consumer leaves while the producer pushes, and the producer while the consumer pops: all values end.
template <class T> void leave(int rounds) {
    for (int round = 0; round < rounds; ++round) {
        auto [producer, consumer] = lockfree::spsc<T>(3);
        std::thread pushes([&, end = std::move(producer), most = round % 7]() mutable {
            for (long i = 0; i < most || round % 2; ++i)
                if (end.push_wait(made_of<T>(i)) != status::ok) break;
        });
        {
            auto end = std::move(consumer);
            for (int i = 0; i < round % 5; ++i) static_cast<void>(end.pop_wait());
        }
        pushes.join();
        CHECK(counted::alive == 0);
    }
}

}  // namespace

int main(int count, char **given) {
    const long values = count > 1 ? std::atol(given[1]) : 20000;
    for (const std::size_t room : std::initializer_list<std::size_t>{1, 2, 3, 64}) {
        both<long>(room, values);
        both<std::int16_t>(room, values);
        both<block>(room, values);
        both<std::string>(room, values);
        both<std::unique_ptr<long>>(room, values);
        both<counted>(room, values);
    }
    leave<long>(300);
    leave<counted>(300);
    std::puts("passed");
}
