// Ranges: of move iterators and of C++20's views, with ends of another type; many values of a pop
// that waits. The linker wraps lockfree_put_range, which tells how many ranges go in at once.
#include "lockfree.hpp"
#include "check.hpp"

#include <array>
#include <chrono>
#include <iterator>
#include <list>
#include <sstream>
#include <string>
#include <thread>
#include <vector>
#if __cplusplus >= 202002L
#include <ranges>
#endif

namespace {
int at_once = 0;
}

extern "C" lockfree_answer __real_lockfree_put_range(lockfree_handle *, const std::uint64_t *, std::size_t, std::uint64_t);
extern "C" lockfree_answer __wrap_lockfree_put_range(lockfree_handle *pass, const std::uint64_t *values, std::size_t count,
                                                     std::uint64_t tries) {
    ++at_once;
    return __real_lockfree_put_range(pass, values, count, tries);
}

namespace {

using lockfree::status;
using namespace std::chrono_literals;
using stack = lockfree::stack<std::string, lockfree::capacity<4>>;

std::string text(int n) { return std::to_string(n) + " and more than a short string"; }

/// By each standard they go in at once, and what does not fit is where it was.
void move_iterators() {
    stack strings;
    std::vector<std::string> from;
    for (int i = 0; i < 6; ++i) from.push_back(text(i));
    const auto next = strings.push(std::make_move_iterator(from.begin()), std::make_move_iterator(from.end()));
    CHECK(std::exchange(at_once, 0) == 1 && next.base() == from.begin() + 4);
    CHECK(from[4] == text(4) && from[5] == text(5) && from[0].empty());
    for (int i = 4; i-- > 0;) CHECK(strings.pop() == text(i));
}

/// A range that ends at a zero, whose end has a type of its own.
struct until_zero {
    const int *at;
    struct end_type {};
    struct iterator {
        using iterator_category = std::forward_iterator_tag;
        using value_type = int;
        using difference_type = std::ptrdiff_t;
        using pointer = const int *;
        using reference = const int &;
        const int *at = nullptr;
        reference operator*() const { return *at; }
        iterator &operator++() { return ++at, *this; }
        iterator operator++(int) { return {at++}; }
        bool operator==(const iterator &other) const { return at == other.at; }
        bool operator!=(const iterator &other) const { return at != other.at; }
        bool operator==(end_type) const { return *at == 0; }
        bool operator!=(end_type) const { return *at != 0; }
    };
    iterator begin() const { return {at}; }
    end_type end() const { return {}; }
};

template <class Container> void whole_ranges(bool goes_at_once) {
    Container numbers;
    const int ends_at_zero[] = {1, 2, 3, 4, 5, 6, 0};
    const auto [next, what] = numbers.try_push_range(until_zero{ends_at_zero});
    CHECK(what == status::full && *next == 5 && std::exchange(at_once, 0) == (goes_at_once ? 1 : 0));
    std::array<int, 8> out{};
    CHECK(numbers.pop(out.begin(), 8) == 4 && out[0] == (goes_at_once ? 4 : 1) && out[3] == (goes_at_once ? 1 : 4));
    const std::list<int> three{7, 8, 9};
    CHECK(numbers.push_range(three) == three.end() && numbers.push_range(std::vector<int>()) == std::vector<int>().end());
    CHECK(numbers.try_push_range(three).what == status::full && numbers.close());
    CHECK(numbers.try_push_range(three).what == status::closed);
    at_once = 0;
    typename Container::pass none;
    CHECK(none.try_push_range(three).what == status::no_pass && none.try_pop(out.begin(), 2).what == status::no_pass);
}

void views() {
#if __cplusplus >= 202002L
    lockfree::stack<int, lockfree::capacity<8>> numbers;
    auto some = std::views::iota(1) | std::views::take_while([](int i) { return i < 4; });
    CHECK(numbers.try_push_range(some).what == status::ok && at_once == 1 && numbers.size() == 3);
    std::istringstream from("5 6");
    CHECK(numbers.try_push_range(std::views::istream<int>(from)).what == status::ok && at_once == 1 && numbers.size() == 5);
    at_once = 0;
#endif
}

/// It waits for the first value, and takes what else is there.
template <class Container> void many_at_a_pop() {
    Container strings;
    std::vector<std::string> out(8);
    std::thread pushes([&] {
        std::this_thread::sleep_for(5ms);
        for (int i = 0; i < 3; ++i) CHECK(strings.push(text(i)));
    });
    std::size_t count = 0;
    while (count < 3) {
        const lockfree::batch taken = strings.pop_wait(out.begin(), 8);
        CHECK(taken.count > 0 && taken.what == status::empty);
        count += taken.count;
    }
    pushes.join();
    CHECK(count == 3);
    lockfree::batch taken = strings.pop_wait(out.begin(), 2, 1ms);
    CHECK(taken.count == 0 && taken.what == status::stopped);
    for (int i = 0; i < 3; ++i) CHECK(strings.push(text(i)));
    taken = strings.pop_wait(out.begin(), 2, 1ms);
    CHECK(taken.count == 2 && taken.what == status::ok);
    taken = strings.pop_wait(out.begin(), 0);
    CHECK(taken.count == 0 && taken.what == status::ok && strings.close());
    taken = strings.pop_wait(std::back_inserter(out), 2);
    CHECK(taken.count == 1 && taken.what == status::closed && out.size() == 9);
    taken = strings.pop_wait(out.begin(), 2);
    CHECK(taken.count == 0 && taken.what == status::closed);
    typename Container::pass none;
    CHECK(none.pop_wait(out.begin(), 2).what == status::no_pass);
}

}  // namespace

int main() {
    move_iterators();
    whole_ranges<lockfree::queue<int, lockfree::capacity<4>>>(false);
    whole_ranges<lockfree::stack<int, lockfree::capacity<4>>>(true);
    views();
    many_at_a_pop<lockfree::queue<std::string, lockfree::capacity<4>>>();
    many_at_a_pop<lockfree::ring_queue<std::string, lockfree::capacity<4>>>();
    many_at_a_pop<lockfree::stack<std::string, lockfree::capacity<4>>>();
    std::puts("passed");
}
